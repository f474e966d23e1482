"""How Rust is laid out, as `rt fmt` leaves it."""
from deriving.files import RUST_WIDTH
from deriving.naming import rust_variable

# How long the fields of a pattern may be that stays on one line.
FIELDS_WIDTH = 18


def named(field):
    """Returns the name by which a pattern binds a field: its own, or that of its type."""
    return rust_variable(field.name)


def held(field):
    """Returns the name by which a pattern binds a field: its own, or `held`."""
    return field.name if field.is_named else 'held'


def pattern(declaration, variant, used, name=named, indent=None):
    """Returns the pattern of a variant that binds the fields in a list: on one line, or if it has an indentation, as `rt fmt` leaves it."""
    head = f'{declaration.name}::{variant.name}'
    if variant.form == 'unit':
        return head
    if variant.form == 'tuple':
        return f'{head}({", ".join(name(it) if it in used else "_" for it in variant.fields)})'
    bound = [it.name if name(it) == it.name else f'{it.name}: {name(it)}' for it in variant.fields if it in used]
    bound += [] if len(bound) == len(variant.fields) else ['..']
    one = ', '.join(bound)
    if indent is None or len(one) <= FIELDS_WIDTH:
        return f'{head} {{ {one} }}'
    lines = ''.join(f'{indent}    {it}{"" if it == ".." else ","}\n' for it in bound)
    return f'{head} {{\n{lines}{indent}}}'


# How wide the arguments of a call and the items of a list may be that stay on one line, and an item that is short.
ARGUMENTS_WIDTH, SHORT_WIDTH = 60, 10


def call(head, arguments, tail, indent):
    """Returns a call, or a tuple, whose arguments are on one line or each on one."""
    one = ', '.join(arguments)
    if len(one) <= ARGUMENTS_WIDTH and len(f'{indent}{head}({one}){tail}') <= RUST_WIDTH:
        return f'{indent}{head}({one}){tail}'
    if len(arguments) > 1 and all(len(it) <= SHORT_WIDTH for it in arguments):
        return f'{indent}{head}(\n{indent}    {one},\n{indent}){tail}'
    return f'{indent}{head}(\n' + ''.join(f'{indent}    {it},\n' for it in arguments) + f'{indent}){tail}'


def array(head, rows):
    """Returns an array of tuples, or of texts."""
    one = ', '.join(f'({", ".join(it)})' if isinstance(it, tuple) else it for it in rows)
    if len(one) <= ARGUMENTS_WIDTH and len(f'{head}[{one}];') <= RUST_WIDTH:
        return f'{head}[{one}];'
    if len(rows) == 1 and isinstance(rows[0], tuple):
        return head + '[' + call('', rows[0], '', ' ' * RUST_WIDTH).replace(' ' * RUST_WIDTH, '') + '];'
    return f'{head}[\n' + ''.join(call('', it, ',', '    ') + '\n' if isinstance(it, tuple) else f'    {it},\n' for it in rows) + '];'
