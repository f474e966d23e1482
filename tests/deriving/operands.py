"""What the fields of variants refer to, in the form in which the definitions of naga_valid say it."""
from dataclasses import dataclass

from deriving.declarations import Unreadable, snake
from deriving.naming import antt_variable, rust_variable

ORDINALS = ('first', 'second', 'third')


@dataclass
class Operand:
    """What a field refers to, or one of the expressions that it contains."""
    # `one` expression, an `option` of one, one that a function has `found` in a part, another `element`, a `list` of expressions, a
    # `range` of them, or all expressions of a `part`.
    form: str
    field: str
    # The name of the function, the element or the part.
    of: str = ''
    # The field of the struct that the field is.
    inner: str = ''

    @property
    def antt(self):
        """Returns the operand in antt."""
        variable = antt_variable(self.field)
        return f'{self.of} {variable}' if self.form == 'found' else f'{variable}.{self.inner}' if self.inner else variable

    @property
    def rust(self):
        """Returns the operand in Rust, from variables for the values of fields."""
        variable = rust_variable(self.field)
        return f'{self.of}({variable})' if self.form == 'found' else f'{variable}.{self.inner}' if self.inner else variable

    @property
    def read(self):
        """Returns the operand in Rust, from the variables of a pattern for a reference."""
        return f'*{self.rust}' if self.form in ('one', 'option', 'element') and not self.inner else self.rust


def found(declarations, name):
    """Returns how many expressions a value of a type contains at most."""
    return max(len(operands(declarations, it.fields)) for it in declarations[name].variants)


def finders(declarations, name):
    """Returns the functions that find the expressions that a value of a type contains."""
    count, word = found(declarations, name), snake(name)
    return [f'operand_of_{word}'] if count == 1 else [f'{it}_of_{word}' for it in ORDINALS[:count]]


def parts(declarations, declaration):
    """Returns the enums that contain handles, each once, to which the fields of a declaration belong."""
    shapes = [it for _, it in declarations.parts(declaration.all_fields()) if it[0] == 'declared' and declarations.refers(it)]
    return list(dict.fromkeys(it[1] for it in shapes if not declarations[it[1]].is_struct))


def parts_at_ends(declarations, declaration):
    """Returns those of these enums all expressions of which stand at the end of a variant's."""
    return {it.of for variant in declaration.variants for it in operands(declarations, variant.fields) if it.form == 'part'}


def operands(declarations, fields):
    """Returns what fields refer to, in declared order.

    Of an enum at the end, behind expressions that are always there, these are all expressions that it contains, if each of its variants
    always contains the same ones; else the functions that find them are named.
    """
    made = []
    for field, shape in declarations.parts(fields):
        if declarations.refers(shape):
            made += of_field(declarations, field, shape, field is fields[-1] and all(it.form == 'one' for it in made))
    return made


def of_field(declarations, field, shape, is_last):
    if shape == ('handle', 'Expression'):
        return [Operand('one', field.name)]
    if shape[0] == 'handle':
        return [Operand('element', field.name, shape[1])]
    if shape == ('option', ('handle', 'Expression')):
        return [Operand('option', field.name)]
    if shape[0] in ('list', 'range'):
        return [Operand(shape[0], field.name)]
    if shape[0] != 'declared':
        raise Unreadable(field.where, f'no operands are known of `{field.type}`')
    declaration = declarations[shape[1]]
    if declaration.is_struct:
        inner = [it for it, shape in declarations.parts(declaration.fields) if declarations.refers(shape)]
        return [Operand('one', field.name, inner=it.name) for it in inner]
    contained = [it for variant in declaration.variants for it in operands(declarations, variant.fields)]
    if is_last and found(declarations, shape[1]) > 1 and all(it.form == 'one' for it in contained):
        return [Operand('part', field.name, shape[1])]
    return [Operand('found', field.name, it) for it in finders(declarations, shape[1])]
