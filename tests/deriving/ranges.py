"""naga_json_round_trip: that the numbers in a value are in the ranges of their types, which a contract knows where code reads them."""
from deriving import shapes
from deriving.codecs import Codecs, modules_of
from deriving.declarations import snake
from deriving.files import Antt, Imports, Rust
from deriving.rust import held, pattern

CRATE = 'crates/naga_json_round_trip'
GHOSTS = {'std.specs.Bool': 'Decides', 'naga_json_round_trip.specs.Module': 'PlainFits'}
SOURCES = {'crate::in_range': 'InRange each_in_range has_its_length', 'crate::read_back::range': 'range_reads_back'}
LEMMAS = {'std.proofs.lemmas.List.Elements': 'All-map'}


def calls(codecs, field, shape, owner=''):
    """Returns the calls that read the numbers of a field."""
    name = owner + held(field)
    if shape[0] != 'array':
        return [f'{name}.in_range()']
    return [f'has_its_length({name})'] + [f'each_in_range({name})'] * shapes.has_numbers(codecs.declarations, shape[-1])


def numbers(codecs, fields):
    """Returns the fields that contain numbers, each with its shape."""
    return [(it, shape) for it, shape in codecs.declarations.parts(fields) if shapes.has_numbers(codecs.declarations, shape)]


def arm(codecs, declaration, variant, indent):
    """Returns the arm of a variant."""
    parts = numbers(codecs, variant.fields)
    head = f'{indent}{pattern(declaration, variant, [it for it, _ in parts], held, indent)} =>'
    lines = [line for it in parts for line in calls(codecs, *it)]
    if len(lines) == 1:
        return f'{head} {lines[0]},\n'
    return f'{head} {{' + ''.join(f'\n{indent}    {it};' for it in lines) + (f'\n{indent}' if lines else '') + '}\n'


def body(codecs, declaration):
    if declaration.is_struct:
        lines = [line for it in numbers(codecs, declaration.fields) for line in calls(codecs, *it, 'self.')]
        return ''.join(f'        {it};\n' for it in lines)
    return '        match self {\n' + ''.join(arm(codecs, declaration, it, ' ' * 12) for it in declaration.variants) + '        }\n'


def implementation(codecs, declaration):
    view, fits = shapes.view(declaration), f'{codecs.definition(declaration)}.Fits'
    return f'''impl InRange for {declaration.name} {{
    ghost Fits = {{ {f"λ value. {fits} ({view} value)" if view else fits} }};

    fn in_range(&self) {{
{body(codecs, declaration)}    }}
}}'''


def statement_arm(codecs, statement, variant):
    """Returns the arm of a variant that reads its numbers, or returns whether it is read as it was written."""
    is_range = any(shape[0] == 'range' for _, shape in codecs.parts(variant))
    if variant in shapes.plain(codecs, statement) and not is_range:
        return arm(codecs, statement, variant, ' ' * 8)
    used = variant.fields if is_range else []
    return f'        {pattern(statement, variant, used, held, " " * 8)} => return {"range_reads_back(held)" if is_range else "false"},\n'


def plain_statements(codecs, statement):
    return f'''/// Returns whether a statement contains no block, does not jump, and is read as it was written.
pub(crate) fn plain_reads_back(statement: &Statement) -> bool
    ensures {{ Decides result (PlainFits statement.now) }}
{{
    match statement {{
{''.join(statement_arm(codecs, statement, it) for it in statement.variants)}    }}
    true
}}'''


def answer(codecs, declaration, variant):
    """Returns the answer of a variant that contains a list of what is seen as something else, or nothing if it has no such list."""
    parts, needs_answer, found = codecs.parts(variant), False, 'tt'
    calls = [it for it, shape in parts if shapes.has_numbers(codecs.declarations, shape)]
    for field, shape in reversed(parts):
        number = calls.index(field) + 1 if field in calls else 0
        read = f'c.in_range-in-{variant.name}{"-" + str(number) if number > 1 else ""}.ensures' if number else 'tt'
        is_list = shape[0] == 'list' and shape[1][0] == 'declared'
        element = codecs.declarations[shape[1][1]] if is_list else None
        if number and element and shapes.view(element):
            read = f'All-map {codecs.definition(element)}.Fits {shapes.view(element)} c.in-{variant.name}.{field.name}.items {read}'
            needs_answer = True
        found = f'({read}, {found})'
    name = f'returns-in-{variant.name}'
    return f'pub {name} : goal.{name}\n{name} c = rw c.in-{variant.name}.is {found}' if needs_answer else ''


def answers(codecs, declaration, module):
    """Returns the file of the answers of a declaration, if it has any."""
    found = [text for it in declaration.variants if (text := answer(codecs, declaration, it))]
    folder = f'derived/{module}/{declaration.name}InRange/in_range'
    goal = {f'naga_json_round_trip.proofs.{folder.replace("/", ".")}.Goals': 'as goal'}
    made = Antt(f'{CRATE}/proofs/{folder}/Answers.antt', '', Imports(LEMMAS, goal, shapes.VIEW_MODULES, modules_of(codecs)))
    for text in found:
        made.add(text)
    return [made] if found else []


def files(declarations):
    codecs, made = Codecs(declarations), {}
    for it in codecs.made:
        if it.name != 'Statement' and not shapes.has_numbers(declarations, ('declared', it.name)):
            continue
        module = shapes.module(it)
        if module not in made:
            ghosts = Imports(GHOSTS, shapes.VIEW_MODULES, modules_of(codecs))
            made[module] = Rust(f'{CRATE}/src/derived/{module}.rt', shapes.about(module), ghosts, Imports(SOURCES))
        made[module].imports.add(it.crate, it.name)
        made[module].add(plain_statements(codecs, it) if it.name == 'Statement' else implementation(codecs, it))
        yield from answers(codecs, it, module)
    yield from made.values()
