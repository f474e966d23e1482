"""How structs and enums are read from parsed JSON, with a function for each variant that has named fields.

What is read without an allocation is in naga_json_values, expressions and statements are in crates of their own, and what else has a type
of values by hand is in naga_json_types. Only the crate of a trait can implement it for types of naga_ir, so these are functions, and
naga_json_read implements `FromJson` by them.
"""
from deriving import shapes
from deriving.codecs import Codecs, constructor, modules_of, value_imports
from deriving.declarations import snake
from deriving.files import ANTT_WIDTH, RUST_WIDTH, Antt, Imports, Rust, wrapped
from deriving.naming import article, nested
from deriving.plain_kinds import kinds
from deriving.rust import array

VALUES, TYPES = 'naga_json_values', 'naga_json_types'
# The crates of what is in one of its own.
OWN = {'Expression': 'naga_json_expressions', 'Statement': 'naga_json_bodies'}
GHOSTS = {
    'std.specs.Prelude': '◌≡◌ drop option_map',
    'std.specs.Result': 'result_ok',
    'json.specs.Value': 'value_view',
    'naga_json.specs.Objects': 'choose find_row',
    'naga_json.specs.Variants': 'held_in',
    'naga_json_values.specs.Reads': 'Reads',
}
SOURCES = {
    VALUES: 'Cause Coded read_struct',
    f'{VALUES}::kinds': 'Kind',
    f'{VALUES}::lists': 'coded_list_field',
    f'{VALUES}::names': 'Row find_row',
    f'{VALUES}::numbers': 'double single',
    f'{VALUES}::objects': 'holder variant',
    f'{VALUES}::text': 'optional_text_field text_field',
    'json': 'Value',
    'std::alloc': 'Global',
}
# How many variants the function at most matches that reads one by its name.
VARIANTS = 8
# The readers of floats.
FLOATS = {'binary32': 'single', 'binary64': 'double'}
UNFOLDING = '#[tactic(auto, unfolding(naga_json::specs::Fields::struct_in))]'
ITSELF = '#[tactic(auto, using(naga_json_values::proofs::ReadsLemmas::reads_itself))]'
EXACT = '#[tactic(auto, using(naga_json_values::proofs::ReadsLemmas::reads_exact))]'


def crate_of(declaration):
    """Returns the crate that reads a declaration."""
    return OWN.get(declaration.name) or (TYPES if shapes.view(declaration) else VALUES)


def module_of(declaration):
    """Returns the module that reads a declaration, below `derived`."""
    return 'read' if declaration.name in OWN else shapes.module(declaration)


def in_crate(crate, sources):
    """Returns what a file of a crate may import: what is of the crate itself is named by `crate`."""
    return {'::'.join(['crate' if it == crate else it for it in module.split('::')]): names for module, names in sources.items()}


def is_allocated(codecs, shape):
    """Returns whether an allocation may fail where a shape is read."""
    tag = shape[0]
    if tag in ('option', 'array'):
        return is_allocated(codecs, shape[-1])
    return tag == 'list' or shape == ('leaf', 'String') or tag == 'declared' and allocates(codecs, codecs.declarations[shape[1]].all_fields())


def allocates(codecs, fields):
    """Returns whether an allocation may fail where some fields are read."""
    return any(is_allocated(codecs, shape) for _, shape in codecs.declarations.parts(fields))


def has_own_reader(codecs, declaration):
    """Returns whether a value is what its JSON represents, but may have several JSONs, so that it has no codec."""
    return codecs.has_form(declaration) and not shapes.view(declaration)


def field_function(codecs, shape):
    """Returns the name of the function that reads a field where an allocation may fail."""
    if shape[0] == 'option':
        return f'optional_{field_function(codecs, shape[1])}'
    if shape[0] == 'list' and not is_allocated(codecs, shape[1]):
        return 'coded_list_field'
    word = 'text' if shape[-1] == 'String' else snake(shape[-1][-1]) + 's' if shape[0] == 'list' else snake(shape[-1])
    return f'{word}_field'


def field_text(codecs, field, shape):
    """Returns a field as `read_struct!` takes it: with the function that reads it, if an allocation may fail."""
    if not is_allocated(codecs, shape):
        return field.name
    return f'{field.name}: {field_function(codecs, shape)}(alloc)'


def struct_body(codecs, made, value, parts, indent):
    """Returns the expression that reads the fields of an object and makes a value of them."""
    listed = [field_text(codecs, it, shape) for it, shape in parts]
    one = f'{indent}read_struct! {{ {value} => {made} {{ {", ".join(listed)} }} }}'
    if len(one) <= RUST_WIDTH:
        return one
    inner = wrapped([it + ',' for it in listed], indent + '    ', RUST_WIDTH)
    return f'{indent}read_struct! {{ {value} => {made} {{\n{inner}{indent}}} }}'


def signature(head, arguments, result):
    """Returns the head of a function, on one line or with an argument on each."""
    one = f'{head}({", ".join(arguments)}) -> {result}'
    return one if len(one) <= RUST_WIDTH else f'{head}(\n' + ''.join(f'    {it},\n' for it in arguments) + f') -> {result}'


def dedented(body):
    """Returns the body of a function that is in no implementation."""
    return '\n'.join(it[4:] for it in body.split('\n'))


def value_of(codecs, declaration):
    """Returns the type of the values of a declaration, after its module."""
    value = codecs.value(declaration)
    return next((module, value) for module, names in value_imports(codecs, []).items() if value in names.split())


def clause(left, right):
    """Returns a contract of one clause, on one line or on two."""
    one = f'    ensures {{ {left}{right} }}'
    return one if len(one) <= ANTT_WIDTH else f'    ensures {{ {left.rstrip()}\n        {right} }}'


class Readers:
    """The functions that read the values of one declaration."""

    def __init__(self, codecs, declaration):
        self.codecs, self.declaration = codecs, declaration
        self.word, self.view = snake(declaration.name), shapes.view(declaration)
        self.simple = codecs.simple(declaration)
        self.units = [it for it in self.simple if it.form == 'unit']
        self.held = [it for it in self.simple if it.form != 'unit']
        # Values of a constant contain no handles, whose type has a ghost field.
        self.has_table = declaration.is_copy and not codecs.declarations.refers(('declared', declaration.name))
        self.rows = f'{codecs.table(declaration)}_rows'
        # The variants in groups, of which each is matched by a function.
        self.groups = [self.held[at:at + VARIANTS] for at in range(0, len(self.held), VARIANTS)]

    @property
    def is_whole(self):
        """Returns whether no variant contains a block."""
        return self.simple == self.declaration.variants

    def allocates(self, variants):
        return any(allocates(self.codecs, it.fields) for it in variants)

    def returns(self, meaning, is_exact):
        """Returns the contract of a function that returns a value of this meaning."""
        if not is_exact:
            return clause(f'Reads {self.view} result ', meaning)
        exact = f'option_map {self.view} (result_ok result)' if self.view else 'result_ok result'
        return clause(f'{exact} ', f'≡ {meaning[1:-1] if meaning[0] == "(" else meaning}')

    def variant_function(self, variant):
        """Returns the name of the function that reads a variant with named fields."""
        return f'read_{constructor(self.declaration, variant)}'

    def held_function(self, at):
        """Returns the name of the function that reads one of the variants of a group, or of a later one."""
        name = f'read_held_{self.word}' if self.is_whole else f'read_simple_{self.word}'
        return name if at == 0 else f'{name}_from_{snake(self.groups[at][0].name)}'

    def names(self):
        """Returns the names of the variants that are names alone, as a table or as a function."""
        word, name = self.word, self.declaration.name
        if self.has_table:
            head = f"pub(crate) const {word.upper()}_NAMES: &'static [Row<{name}>] = &"
            rows = [(f'"{it.name}"', f'{name}::{it.name}') for it in self.units]
            return f'/// The variants of `{name}` that are names alone.\n{array(head, rows)}'
        arms = ''.join(f'        "{it.name}" => Ok({name}::{it.name}),\n' for it in self.units)
        return f'''/// Reads {article(name)} that is a name alone.
pub(crate) fn read_named_{word}(name: &str) -> Result<{name}, Cause>
{self.returns(f"(find_row {word}_names name.now)", True)}
{{
    match name {{
{arms}        _ => Err(Cause::UnknownVariant),
    }}
}}'''

    def variant_reader(self, variant):
        """Returns the function that reads a variant with named fields."""
        is_exact = not self.allocates([variant])
        arguments = ['held: &Value<\'_>'] if is_exact else ['alloc: Global', 'held: &Value<\'_>']
        name = self.declaration.name
        return f'''/// Reads {article(variant.name)}.
{UNFOLDING}
{signature(f"fn {self.variant_function(variant)}", arguments, f"Result<{name}, Cause>")}
{self.returns(f"(held_in {constructor(self.declaration, variant)} (value_view held.now))", is_exact)}
{{
{struct_body(self.codecs, f"{name}::{variant.name}", "held", self.codecs.parts(variant), "    ")}
}}'''

    def arm(self, variant):
        """Returns the arm that reads a variant by its name."""
        head = f'        "{variant.name}" =>'
        if variant.form == 'struct':
            return f'{head} {self.variant_function(variant)}({"alloc, " if self.allocates([variant]) else ""}held),\n'
        float_ = self.codecs.format(variant)
        read = FLOATS[float_] if float_ else 'Coded::read_value'
        shape = self.codecs.parts(variant)[0][1]
        if shape[0] == 'declared' and has_own_reader(self.codecs, self.codecs.declarations[shape[1]]):
            read = f'read_{snake(shape[1])}'
        return f'{head} Ok({self.declaration.name}::{variant.name}({read}(held)?)),\n'

    def group_rows(self, at):
        rows = f'{self.rows} (value_view held.now)'
        return f'({rows})' if at == 0 else f'(drop {at * VARIANTS} ({rows}))'

    def group_reader(self, at):
        """Returns the function that reads a variant of a group, or of a later one, by its name."""
        left = [it for group in self.groups[at:] for it in group]
        is_exact, name = not self.allocates(left), self.declaration.name
        arguments = [*([] if is_exact else ['alloc: Global']), 'name: &str', 'held: &Value<\'_>']
        last = 'Err(Cause::UnknownVariant)'
        if at + 1 < len(self.groups):
            later = [it for group in self.groups[at + 1:] for it in group]
            last = f'{self.held_function(at + 1)}({"alloc, " if self.allocates(later) else ""}name, held)'
        about = f'Reads {article(name)} that contains data' if at == 0 else f'Reads {article(self.groups[at][0].name)} or a later variant'
        about += '' if self.is_whole or at else ' and no block'
        return f'''/// {about}.
{"" if is_exact else EXACT + chr(10)}{signature(f"{'' if at else 'pub(crate) '}fn {self.held_function(at)}", arguments, f"Result<{name}, Cause>")}
{self.returns(f"(choose {self.group_rows(at)} name.now)", is_exact)}
{{
    match name {{
{"".join(self.arm(it) for it in self.groups[at])}        _ => {last},
    }}
}}'''

    def body(self):
        """Returns the body of the function that reads a whole value."""
        alloc = 'alloc, ' if self.allocates(self.held) else ''
        read = f'{self.held_function(0)}({alloc}name, held)'
        if not self.units:
            return f'        let (name, held) = holder(value)?;\n        {read}'
        named = f'read_named_{self.word}(name)'
        if self.has_table:
            named = f'find_row({self.word.upper()}_NAMES, name).ok_or(Cause::UnknownVariant)'
        return f'''        match variant(value)? {{
            (name, None) => {named},
            (name, Some(held)) => {read},
        }}'''

    def implementation(self):
        """Returns the implementation or the function that reads a whole value."""
        name, is_struct = self.declaration.name, self.declaration.is_struct
        definition = self.codecs.definition(self.declaration)
        body = struct_body(self.codecs, name, 'value', self.codecs.parts(self.declaration), '        ') if is_struct else self.body()
        tactic = f'    {UNFOLDING}\n' if is_struct else ''
        if has_own_reader(self.codecs, self.declaration):
            return self.form_reader(body)
        if not self.view:
            return f'''impl Coded for {name} {{
    ghost codec = {{ {definition} }};

{tactic}    fn read_value(value: &Value<'_>) -> Result<Self, Cause> {{
{body}
    }}
}}'''
        return f'''/// Reads {article(name)}.
{UNFOLDING if is_struct else EXACT}
pub fn read_{self.word}(alloc: Global, value: &Value<'_>) -> Result<{name}, Cause>
{self.returns(f"({definition}.decode (value_view value.now))", False)}
{{
{dedented(body)}
}}'''

    def form_reader(self, body):
        """Returns the function that reads a whole value which may have several JSONs."""
        definition = self.codecs.definition(self.declaration)
        return f'''/// Reads {article(self.declaration.name)}.
pub fn read_{self.word}(value: &Value<'_>) -> Result<{self.declaration.name}, Cause>
{self.returns(f"({definition}.decode (value_view value.now))", True)}
{{
{dedented(body)}
}}'''

    def from_json(self):
        """Returns the implementation of `FromJson`, which calls the function that reads a whole value."""
        name, has_alloc = self.declaration.name, not has_own_reader(self.codecs, self.declaration)
        module, value = value_of(self.codecs, self.declaration)
        return f'''impl FromJson for {name} {{
    ghost use Rattle.{module}.{{{value}}};

    ghost Meaning = {{ {value} }};

    ghost value_of = {{ {self.view or "λ value. value"} }};

    ghost meaning = {{ {self.codecs.definition(self.declaration)}.decode }};

{"" if has_alloc else f"    {ITSELF}{chr(10)}"}    fn from_json({"" if has_alloc else "_"}alloc: Global, value: &Value<'_>) -> Result<Self, Cause> {{
        read_{self.word}({"alloc, " if has_alloc else ""}value)
    }}
}}'''

    def items(self):
        """Returns the items that read values of the declaration."""
        if self.declaration.is_struct:
            return [self.implementation()]
        made = [self.names()] if self.units else []
        made += [self.variant_reader(it) for it in self.held if it.form == 'struct']
        made += [self.group_reader(at) for at in range(len(self.groups))]
        return made + ([self.implementation()] if self.is_whole else [])


def misses(variants):
    """Returns the proof that no variant has the name."""
    return nested([f'other.not-{it.name}' for it in variants], ', ', 'tt')


def answers(readers, function, lines):
    """Returns the answers of a function, of which the last one is about all other names."""
    crate, module = crate_of(readers.declaration), module_of(readers.declaration)
    goal = f'{crate}.proofs.derived.{module}.{function}.Goals'
    made = Antt(f'crates/{crate}/proofs/derived/{module}/{function}/Answers.antt', '', Imports(PROOFS, modules_of(readers.codecs), {goal: 'as goal'}))
    for text in lines:
        made.add(text)
    return made


PROOFS = {
    'std.proofs.Common': '◌∙◌ drop sym take',
    'json.specs.Value': 'value_view',
    'naga_json.proofs.NamesLemmas': 'choose-append choose-misses find_row-misses',
    'naga_json_values.proofs.ReadsLemmas': 'reads_exact',
    'naga_ir.specs.Types': 'inner_of',
    'naga_json.specs.Expression': 'value_of',
    'naga_json.specs.StatementValue': 'value_of_statement',
}


def name_answers(readers):
    """Returns the answers of the function that reads a variant that is a name alone."""
    word = readers.word
    return answers(readers, f'read_named_{word}', [f'''pub returns-in_default : goal.returns-in_default
returns-in_default c =
    let other = c.in_default in
    sym (find_row-misses {word}_names c.args.name.now {misses(readers.units)})'''])


def group_answers(readers, at):
    """Returns the answers of the function that reads a variant of a group, or of a later one."""
    group, later = readers.groups[at], [it for rest in readers.groups[at + 1:] for it in rest]
    is_exact = not readers.allocates([*group, *later])
    rows = readers.group_rows(at).replace('held.now', 'c.args.held.now')
    if not later:
        proof = f'sym (choose-misses {rows} c.args.name.now\n    {misses(group)})'
        proof = proof if is_exact else 'λ _. ' + proof
    else:
        called = readers.held_function(at + 1)
        append = f'choose-append (take {len(group)} rows) (drop {len(group)} rows) c.args.name.now\n    {misses(group)}'
        if readers.allocates(later):
            proof = f'rw ({append}) c.{called}.ensures'
        else:
            proof = f'c.{called}.ensures ∙ sym ({append})'
            proof = proof if is_exact else f'reads_exact {readers.view} c.{called}.result _\n    ({proof})'
        proof = f'let rows = {rows[1:-1]} in\n    {proof}'
    return answers(readers, readers.held_function(at), [f'''pub returns-in_default : goal.returns-in_default
returns-in_default c =
    let other = c.in_default in
    {proof}'''])


def from_json_file(codecs, readers, coded):
    """Returns the file of the implementations of `FromJson`."""
    about = 'Readers of what naga_kinds and naga_ir declare, by the trait `FromJson`.'
    made = Rust('crates/naga_json_read/src/derived/from_json.rt', about, Imports(shapes.VIEW_MODULES, modules_of(codecs)), Imports(IMPLEMENTED))
    for it in readers:
        made.imports.add(it.declaration.crate, it.declaration.name)
        made.imports.add(crate_of(it.declaration), f'read_{it.word}')
        made.add(it.from_json())
    for it in coded:
        made.imports.add(it.crate, it.name)
        made.add(f'impl Plain for {it.name} {{}}')
    return made


IMPLEMENTED = {'crate::read::lists': 'FromJson Plain', 'json': 'Value', VALUES: 'Cause', 'std::alloc': 'Global'}


def files(declarations):
    codecs, made, whole, coded = Codecs(declarations), {}, [], []

    def add(declaration, text):
        crate, module = crate_of(declaration), module_of(declaration)
        if (crate, module) not in made:
            ghosts = Imports(GHOSTS, shapes.VIEW_MODULES, modules_of(codecs))
            about = f'How {article(declaration.name)} is read.' if declaration.name in OWN else shapes.about(module)
            made[crate, module] = Rust(f'crates/{crate}/src/derived/{module}.rt', about, ghosts, Imports(in_crate(crate, SOURCES)))
            for it in codecs.made:
                if has_own_reader(codecs, it) and crate_of(it) != crate:
                    made[crate, module].imports.add(crate_of(it), f'read_{snake(it.name)}')
                if shapes.view(it):
                    made[crate, module].imports.add('crate::members', f'{snake(it.name)}s_field')
        made[crate, module].imports.add(declaration.crate, declaration.name)
        made[crate, module].add(text)

    for it in codecs.made:
        readers = Readers(codecs, it)
        for text in readers.items():
            add(it, text)
        if readers.units and not readers.has_table:
            yield name_answers(readers)
        for at in range(len(readers.groups)):
            yield group_answers(readers, at)
        if not shapes.view(it) and not has_own_reader(codecs, it):
            coded.append(it)
        elif it.is_struct or readers.is_whole:
            whole.append(readers)
    for it in kinds(declarations):
        add(it, f'impl Kind for {it.name} {{}}')
    yield from made.values()
    yield from_json_file(codecs, whole, [*coded, *kinds(declarations)])
