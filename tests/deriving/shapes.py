"""What the emitters of the crates of JSON share: what values are seen as, and which of them contain numbers."""
from deriving.codecs import VALUES
from deriving.declarations import snake

# The leaves that contain numbers whose ranges a contract has to know.
NUMBERS = {'u16', 'u32', 'u64', 'i16', 'i32', 'i64', 'Bytes', 'NonZeroU32', 'Barrier', 'StorageAccess', 'MemoryDecorations'}
# What the values of a type by hand are seen as, where it is not named by the type.
VIEWS = {'Expression': 'value_of', 'Statement': 'value_of_statement', 'StructMember': 'member_of', 'TypeInner': 'inner_of'}
VIEW_MODULES = {
    'naga_ir.specs.Types': 'inner_of member_of',
    'naga_json.specs.Declarations': 'constant_value function_argument_value global_variable_value local_variable_value override_value',
    'naga_json.specs.Expression': 'value_of',
    'naga_json.specs.StatementValue': 'value_of_statement',
}


def view(declaration):
    """Returns the name of what values of a declaration are seen as, or nothing if they are not seen as something else."""
    return VIEWS.get(declaration.name, f'{snake(declaration.name)}_value') if declaration.name in VALUES else ''


def module(declaration):
    """Returns the name of the derived file that is about a declaration: there is one for all of naga_kinds."""
    return 'kinds' if declaration.crate == 'naga_kinds' else declaration.module


def about(module):
    """Returns what a derived file is about."""
    return 'What naga_kinds declares.' if module == 'kinds' else f'What naga_ir declares in {module}.rt.'


def are_written_in_one_way(codecs, declaration):
    """Returns whether each value of a declaration has one JSON, and blocks are not nested in it."""
    return not codecs.has_form(declaration) and codecs.simple(declaration) == declaration.variants


def plain(codecs, declaration):
    """Returns the variants that are written in one way, contain no block and do not jump."""
    return [it for it in codecs.simple(declaration) if not codecs.is_form(it) and 'jump' not in it.facts]


def has_numbers(declarations, shape):
    """Returns whether values of a shape contain numbers, or lists whose length is known."""
    tag, what = shape[0], shape[-1]
    if tag in ('option', 'list'):
        return has_numbers(declarations, what)
    if tag == 'declared':
        return any(has_numbers(declarations, it) for _, it in declarations.parts(declarations[what].all_fields()))
    return tag in ('handle', 'range', 'array') or what in NUMBERS
