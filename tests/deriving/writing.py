"""naga_json_write: how values are written, one row for each variant."""
from deriving import shapes
from deriving.codecs import Codecs, constructor, modules_of
from deriving.declarations import snake
from deriving.files import RUST_WIDTH, Antt, Imports, Rust, wrapped
from deriving.naming import article, nested
from deriving.plain_kinds import kinds
from deriving.rust import held, pattern

CRATE = 'crates/naga_json_write'
GHOSTS = {
    'std.specs.Prelude': '◌≡◌ IsTrue',
    'naga_ir.specs.Tree': 'is_plain',
    'naga_ir.specs.View': 'node_of',
    'naga_json.specs.Block': 'statement_json',
    'naga_json.specs.Variants': 'held_json',
    'naga_json_write.specs.Appends': 'Appends',
    'naga_json_write.specs.Encoding': 'by_view direct',
}
SOURCES = {
    'crate::to_json': 'ToJson',
    'crate::write': 'write_struct write_variant write_variants',
    'crate::write::kinds': 'Kind',
    'crate::writer': 'Writer',
    'std::alloc': 'AllocError',
}


def row(variant):
    """Returns a variant with its fields, as `write_variants!` takes it."""
    names = ', '.join(held(it) for it in variant.fields)
    return variant.name + {'unit': '', 'tuple': f'({names})', 'struct': f' {{ {names} }}'}[variant.form]


def struct_body(declaration):
    one = f'        write_struct! {{ self, out; {", ".join(it.name for it in declaration.fields)} }}'
    if len(one) <= RUST_WIDTH:
        return one
    lines = wrapped([f'{it.name},' for it in declaration.fields], ' ' * 12, RUST_WIDTH)
    return f'        write_struct! {{ self, out;\n{lines}        }}'


def enum_body(declaration):
    rows = ''.join(f'            {row(it)},\n' for it in declaration.variants)
    return f'        write_variants! {{ {declaration.name}, self, out;\n{rows}        }}'


def only_variant_body(declaration):
    variant, indent = declaration.variants[0], ' ' * 12
    names = ', '.join(held(it) for it in variant.fields)
    head = f'{indent}{pattern(declaration, variant, variant.fields, held, indent)} =>'
    return f'        match self {{\n{head} write_{snake(variant.name)}(out, {names}),\n        }}'


def only_variant(codecs, declaration):
    """Returns the function that writes the only variant of an enum, whose values have no place in a `match` for a proof."""
    variant = declaration.variants[0]
    names = ''.join(f'    {held(it)}: &{it.type},\n' for it in variant.fields)
    value = nested([f'{held(it)}.now' for it in variant.fields], ', ', 'tt')
    return f'''/// Appends {article(variant.name)}.
fn write_{snake(variant.name)}(
    out: &mut Writer,
{names}) -> Result<(), AllocError>
    ensures before {{ out.new.before ≡ out.old.before }}
    ensures tokens {{ Appends result out.old out.new
        (held_json {constructor(declaration, variant)} {value}) }}
{{
    write_variant! {{ out, {row(variant)} }}
}}'''


def implementation(codecs, declaration):
    view = shapes.view(declaration)
    encoding = f'by_view {view}' if view else 'direct'
    body = struct_body if declaration.is_struct else only_variant_body if len(declaration.variants) == 1 else enum_body
    return f'''impl ToJson for {declaration.name} {{
    ghost encoding = {{ {encoding} {codecs.definition(declaration)}.encode }};

    fn write(&self, out: &mut Writer) -> Result<(), AllocError> {{
{body(declaration)}
    }}
}}'''


def plain_rows(codecs, declaration, last):
    """Returns the rows of the plain variants, and one for the others."""
    rows = [f'        {row(it)}' for it in shapes.plain(codecs, declaration)]
    return ',\n'.join(rows) + f';\n        {last},\n'


def plain_expressions(codecs, expression):
    return f'''/// Appends an expression that is not a literal. Appends null for a literal.
pub(crate) fn write_plain_expression(out: &mut Writer, value: &Expression) -> Result<(), AllocError>
    ensures before {{ out.new.before ≡ out.old.before }}
    ensures tokens {{ Appends result out.old out.new (expression_payload (value_of value.now)).json }}
{{
    write_variants! {{ Expression, value, out;
{plain_rows(codecs, expression, 'Expression::Literal(_) => out.null()')}    }}
}}'''


def plain_statements(codecs, statement):
    return f'''/// Appends a plain statement.
///
/// Precondition: the statement is plain.
pub(crate) fn write_plain_statement(out: &mut Writer, value: &Statement) -> Result<(), AllocError>
    requires {{ IsTrue (is_plain (node_of value.now)) }}
    ensures before {{ out.new.before ≡ out.old.before }}
    ensures tokens {{ Appends result out.old out.new (statement_json (value_of_statement value.now)) }}
{{
    write_variants! {{ Statement, value, out;
{plain_rows(codecs, statement, '_ => unreachable!()')}    }}
}}'''


def answers(folder, variants):
    """Returns the answers of a function that writes one variant in each arm."""
    goal = f'naga_json_write.proofs.derived.{folder.replace("/", ".")}.Goals'
    made = Antt(f'{CRATE}/proofs/derived/{folder}/Answers.antt', '', Imports({goal: 'as goal'}))
    seen = set()
    for variant in variants:
        called = {'tuple': 'write_holder', 'struct': 'write_struct_variant'}.get(variant.form)
        if called:
            call = f'{called}-in-{variant.name}' if called in seen else called
            seen.add(called)
            name = f'returns-in-{variant.name}-clause-tokens'
            made.add(f'pub {name} : goal.{name}\n{name} c = rw c.in-{variant.name}.is c.{call}.ensures.tokens')
    return made


# The functions that write the variants of an enum that are plain, where others are not.
PARTS = {'Expression': plain_expressions, 'Statement': plain_statements}


def files(declarations):
    codecs, made = Codecs(declarations), {}

    def add(declaration, text):
        module = shapes.module(declaration)
        if module not in made:
            ghosts = Imports(GHOSTS, shapes.VIEW_MODULES, modules_of(codecs))
            made[module] = Rust(f'{CRATE}/src/derived/{module}.rt', shapes.about(module), ghosts, Imports(SOURCES))
        made[module].imports.add(declaration.crate, declaration.name)
        if len(declaration.variants) == 1 and not declaration.is_plain:
            made[module].imports.add('naga_arena', 'Handle')
            for name in declarations.reached(declaration.name):
                made[module].imports.add(declarations[name].crate, name)
        made[module].add(text)

    for it in codecs.made:
        is_whole = shapes.are_written_in_one_way(codecs, it)
        if not is_whole and it.name not in PARTS:
            continue
        add(it, implementation(codecs, it) if is_whole else PARTS[it.name](codecs, it))
        folder = f'{it.name}ToJson/write' if is_whole else f'write_plain_{snake(it.name)}'
        if len(it.variants) == 1:
            add(it, only_variant(codecs, it))
        elif not it.is_struct:
            yield answers(f'{shapes.module(it)}/{folder}', shapes.plain(codecs, it))
    for it in kinds(declarations):
        add(it, f'impl Kind for {it.name} {{}}')
    yield from made.values()
