"""naga_text: the texts of expressions, of statements, and of the enums in them. text_proofs.py makes the written parts of their proofs.

The text of a variant is its word, and then a piece for each of its fields that is no handle. A space is before each piece, and before the
word of an enum that is such a piece. Of an expression, each optional operand that is present is named too.
"""
from dataclasses import dataclass, replace

from deriving import plain_kinds
from deriving.declarations import Unreadable, snake
from deriving.files import ANTT_WIDTH, RUST_WIDTH, Antt, Imports, Rust, wrapped
from deriving.naming import antt_pattern, antt_variable, article, camel, contains_blocks, rust_variable
from deriving.rust import pattern

# The enums with which the texts begin: the definition of the text, the function that appends it, and what the function appends.
ROOTS = {
    'Expression': (
        'kind_text', 'push_kind',
        'the name of a variant, its fields that are not handles, and the names of the optional handles that are present'),
    'Statement': ('action_text', 'push_action', 'the name of a statement, and its fields that are neither handles nor blocks'),
    'BuiltIn': (),
    'ImageClass': (),
    'AddressSpace': (),
}
# The words of statements that are not the names of the variants in snake case.
WORDS = {
    'RayPipelineFunction': 'trace_ray',
    'SubgroupCollectiveOperation': 'subgroup_collective',
    'WorkGroupUniformLoad': 'workgroup_uniform_load',
}
# The statements whose texts are written by hand: the definition, the function and the lemma, and the field that they are called with.
BY_HAND = {'Loop': ('loop_words', 'push_loop', 'loop_words-plain', 'break_if')}
# The types whose texts are written by hand: the text, the call that appends it, and the lemma, each of a value `{0}` of a field `{1}`.
LEAVES = {
    'u32': ('number {0}', 'push_number(text, {0})', 'number-plain {0}'),
    'bool': ('flag {0} (codes "{1}")', 'text.push_flag({0}, "{1}")', 'flag-plain {0} (Spells-ascii (codes "{1}") refl)'),
    'Option<Bytes>': ('optional_number {0}', 'push_optional_number(text, {0})', 'optional_number-plain {0}'),
    'Literal': ('word (literal_text {0})', 'push_value(text, {0})', 'word-plain (literal_text-plain {0})'),
    'Barrier': ('barrier_text {0}', 'push_barrier(text, {0})', 'barrier_text-plain {0}'),
    'StorageAccess': ('access_text {0}', 'push_access(text, {0})', 'access_text-plain {0}'),
    '[SwizzleComponent; 4]': ('word (pattern_text {0})', 'push_pattern(text, {0})', 'word-plain (pattern_text-plain {0})'),
}
# The functions that append a word and one piece, by the function that appends the piece.
AFTER_A_WORD = {'push_number': 'push_numbered', 'text.push_flag': 'push_flagged', 'push_kind_name': 'push_named_kind'}
# Where the names are that files of specs/ and clauses cite.
SPECS = {
    'std.specs.Prelude': '◌≡◌ ℕ List ◌++◌ OnOk codes is_some',
    'std.specs.Option': 'option_map',
    'naga_text.specs.Literals': 'literal_text',
    'naga_text.specs.Parts': 'access_text barrier_text loop_words pattern_text',
    'naga_text.specs.Words': 'flag number optional_name optional_number word',
}
CODE = {
    'crate::literal': 'push_value',
    'crate::parts': 'push_access push_barrier push_loop push_pattern',
    'crate::pieces': 'push_flagged push_kind_name push_named_kind push_number push_numbered '
                     'push_optional_kind push_optional_number push_presence',
    'crate::text': 'Text',
    'naga_arena': 'Handle',
    'std::alloc': 'AllocError',
}


@dataclass
class Piece:
    """A piece of the text of a variant. In its text, call and lemma, `{0}` is the value and `{1}` the name of the field."""
    name: str
    # The type of the parameter, what is passed for it, and the value in the definition.
    type: str
    given: str
    value: str
    text: str
    call: str
    lemma: str

    @property
    def callee(self):
        return self.call.split('(')[0]

    @property
    def parameter(self):
        return rust_variable(self.name)

    def form(self, template, value):
        return template.format(value, self.name)

    def in_contract(self):
        return self.form(self.text, self.parameter + ('.now' if self.type.startswith('&') else ''))

    def behind(self, word):
        """Returns the call of the function that appends a word and this piece, if there is such a function."""
        if helper := AFTER_A_WORD.get(self.callee):
            arguments = self.form(self.call, self.given)[len(self.callee) + 1:].removeprefix('text, ')
            return f'{helper}(text, "{word}", {arguments}'
        return None


@dataclass
class Row:
    """A variant with its text."""
    variant: object
    word: str
    pieces: list
    # The fields whose variables the code names.
    used: list
    is_by_hand: bool = False


def sum_of(parts):
    """Returns texts, one after another."""
    text = parts[-1]
    for it in reversed(parts[:-1]):
        text = f'{it} ++ ({text})' if ' ++ ' in text else f'{it} ++ {text}'
    return text


def broken(text, indent):
    """Returns a sum on as many lines as it needs, each of which but the first begins with an operator."""
    words = text.split(' ++ ')
    return wrapped([words[0], *(f'++ {it}' for it in words[1:])], indent, ANTT_WIDTH).rstrip('\n')


class EnumText:
    """The text of the values of one enum."""

    def __init__(self, declarations, declaration):
        self.declarations, self.declaration = declarations, declaration
        self.word = snake(declaration.name)
        made = (f'{self.word}_text', f'push_{self.word}', f'{article(declaration.name)}, with a space before it')
        self.definition, self.function, self.about = ROOTS.get(declaration.name) or made
        self.is_part = not ROOTS.get(declaration.name)
        self.rows = [self.row(it) for it in declaration.variants]

    def row(self, variant):
        name = self.declaration.name
        word = WORDS.get(variant.name, snake(variant.name)) if name == 'Statement' else variant.name
        names_operands = name == 'Expression' and 'no flags' not in variant.facts
        if name == 'Statement' and variant.name in BY_HAND:
            return Row(variant, word, [], [it for it in variant.fields if it.name == BY_HAND[variant.name][-1]], True)
        found = [(it, self.pieces(it, names_operands)) for it in variant.fields]
        return Row(variant, ' ' * self.is_part + word, [it for _, pieces in found for it in pieces], [it for it, pieces in found if pieces])

    def pieces(self, field, names_operands):
        """Returns the pieces of a field: one, or of a struct those of its fields, or none of what only refers to something."""
        shape = self.declarations.shape(field.type)
        rust, antt = rust_variable(field.name), antt_variable(field.name)
        if contains_blocks(field):
            return []
        if shape[0] == 'declared' and self.declarations[shape[1]].is_struct:
            inner = [it for part in self.declarations[shape[1]].fields for it in self.pieces(part, False)]
            return [replace(it, given=f'{rust}.{it.name}', value=f'{antt}.{it.name}') for it in inner]
        forms = LEAVES.get(field.type) or self.forms(field, shape, names_operands)
        if not forms:
            return []
        by_reference = shape[0] in ('declared', 'array') and field.type != 'Literal'
        return [Piece(field.name, '&' * by_reference + field.type, rust if by_reference else f'*{rust}', antt, *forms)]

    def forms(self, field, shape, names_operands):
        """Returns the text, the call and the lemma of a field, or nothing for one that only refers to something."""
        if shape[0] == 'kind':
            name = f'{snake(shape[1])}_name'
            return f'word ({name} {{0}})', 'push_kind_name(text, {0})', f'word-plain ({name}-plain {{0}})'
        if shape[0] == 'option' and shape[1][0] == 'kind':
            name = f'{snake(shape[1][1])}_name'
            lemma = f'optional_name-plain (Spells-ascii (codes "{{1}}") refl) {name} {name}-plain {{0}}'
            return f'optional_name (codes "{{1}}") (option_map {name} {{0}})', 'push_optional_kind(text, "{1}", {0})', lemma
        if shape == ('option', ('handle', 'Expression')) and names_operands:
            lemma = 'flag-plain (is_some {0}) (Spells-ascii (codes "{1}") refl)'
            return 'flag (is_some {0}) (codes "{1}")', 'push_presence(text, {0}, "{1}")', lemma
        if shape[0] == 'declared':
            word = snake(shape[1])
            is_said = len(self.declarations[shape[1]].variants) > 1
            return is_said and (f'{word}_text {{0}}', f'push_{word}(text, {{0}})', f'{word}_text-plain {{0}}')
        if self.declarations.refers(shape):
            return None
        raise Unreadable(field.where, f'no text is known for `{field.type}`: write it by hand, and add it to LEAVES in text.py')

    def parts(self):
        """Returns the names of the enums whose texts are pieces."""
        types = {it.type.lstrip('&') for row in self.rows for it in row.pieces} - {*LEAVES}
        return [it for it in self.declarations if it in types and not self.declarations[it].is_plain]

    # ---- definitions

    def value(self, row):
        """Returns the text of a variant, as the definition has it."""
        if row.is_by_hand:
            return f'{BY_HAND[row.variant.name][0]} {BY_HAND[row.variant.name][-1]}'
        return sum_of([f'codes "{row.word}"', *(it.form(it.text, it.value) for it in row.pieces)])

    def defined(self, row):
        line = f'{self.definition} {antt_pattern(self.declaration, row.variant)} ='
        one = f'{line} {self.value(row)}'
        return one if len(one) <= ANTT_WIDTH else f'{line}\n{broken(self.value(row), " " * 4)}'

    def definitions(self):
        rows = '\n'.join(self.defined(it) for it in self.rows)
        return f'''-- {self.about}
abbrev pub {self.definition} : {self.declaration.name} → List ℕ
{rows}'''

    # ---- code

    def variant_function(self, row):
        return f'push_{self.word}_{snake(row.variant.name)}'

    def has_function(self, row):
        return len(row.pieces) > 1 or row.pieces and not row.pieces[0].behind(row.word)

    def called(self, row):
        """Returns the call that appends the text of a variant."""
        if row.is_by_hand:
            return f'{BY_HAND[row.variant.name][1]}(text, *{BY_HAND[row.variant.name][-1]})'
        if not row.pieces:
            return f'text.push("{row.word}")'
        if self.has_function(row):
            return f'{self.variant_function(row)}({", ".join(["text", *(it.given for it in row.pieces)])})'
        return row.pieces[0].behind(row.word)

    def arm(self, row):
        head, call = f'        {pattern(self.declaration, row.variant, row.used)} =>', self.called(row)
        one = f'{head} {call},\n'
        return one if len(one) <= ANTT_WIDTH + 1 else f'{head}\n            {call},\n'

    def dispatcher(self):
        """Returns the function that appends the text of a value."""
        arms, visible = ''.join(self.arm(it) for it in self.rows), 'pub(crate)' if self.is_part else 'pub'
        return f'''/// Appends {self.about}.
///
/// Returns `Err` if allocation fails. The text may then end with a part of this.
// One line for each variant.
#[rattlefmt::skip]
{visible} fn {self.function}(text: &mut Text, {self.word}: &{self.declaration.name}) -> Result<(), AllocError>
    ensures {{ OnOk result (text.new ≡ text.old ++ {self.definition} {self.word}.now) }}
{{
    match {self.word} {{
{arms}    }}
}}'''

    def signature(self, row):
        parameters = ['text: &mut Text', *(f'{it.parameter}: {it.type}' for it in row.pieces)]
        one = f'fn {self.variant_function(row)}({", ".join(parameters)}) -> Result<(), AllocError>'
        if len(one) <= RUST_WIDTH:
            return one
        return f'fn {self.variant_function(row)}(\n' + ''.join(f'    {it},\n' for it in parameters) + ') -> Result<(), AllocError>'

    def function_of(self, row):
        """Returns the function that appends the text of one variant."""
        text = sum_of([f'codes "{row.word}"', *(it.in_contract() for it in row.pieces)])
        clause = f'    ensures {{ OnOk result (text.new ≡ text.old ++ ({text})) }}'
        if len(clause) > ANTT_WIDTH:
            clause = '    ensures { OnOk result (text.new ≡ text.old\n' + broken(f' ++ ({text})) }}', ' ' * 8)
        calls = '?;\n    '.join([f'text.push("{row.word}")', *(it.form(it.call, it.parameter) for it in row.pieces)])
        return f'''/// Appends the text of {article(f'{self.declaration.name}::{row.variant.name}')}.
{self.signature(row)}
{clause}
{{
    {calls}
}}'''


def all_enums(declarations):
    """Returns the texts of all enums, those that are pieces before those that contain them."""
    made, left = {}, [*ROOTS]
    while left:
        name = left.pop(0)
        if name not in made:
            made[name] = EnumText(declarations, declarations[name])
            left += made[name].parts()
    return [made[it] for it in declarations if it in made]


def where(declaration):
    """Returns the module of antt of a declaration."""
    return f'{declaration.crate}.specs.declared.{declaration.module.replace("/", ".")}.{declaration.name}'


def names_of_kinds(declarations):
    return {'naga_kinds.specs.derived.Names': ' '.join(f'{snake(it.name)}_name' for it in plain_kinds.kinds(declarations))}


def definition_of(enum):
    return {f'naga_text.specs.derived.{camel(enum.declaration.module)}': enum.definition}


def specs_imports(declarations, enums, *tables):
    """Returns from where the files of specs/ and proofs/ import their names, and the variants of these enums."""
    imports = Imports(*tables, SPECS, names_of_kinds(declarations), *map(definition_of, enums))
    for it in enums:
        variants = where(it.declaration) + ('' if any(map(contains_blocks, it.declaration.all_fields())) else '.TheVariants')
        imports.add(where(it.declaration), it.declaration.name)
        imports.add(variants, f'as {it.word}')
    return imports


def code_imports(declarations, enums):
    """Returns from where the code imports its names, those of these enums among them."""
    kinds = [it.name for it in declarations.values() if it.crate in ('naga_kinds', 'naga_ir')]
    imports = Imports(CODE, {'naga_ir': ' '.join([*kinds, 'Barrier', 'Bytes', 'StorageAccess'])})
    for it in enums:
        imports.add(f'crate::derived::{it.declaration.module}', it.function)
    return imports


def module_files(declarations, module, enums, others):
    """Yields the definitions and the code for the enums that a module declares."""
    names = specs_imports(declarations, [*enums, *others])
    ghosts = Imports(SPECS, names_of_kinds(declarations), *map(definition_of, [*enums, *others]))
    code_names = code_imports(declarations, others)
    definitions = Antt(f'crates/naga_text/specs/derived/{camel(module)}.antt', f'The texts of the enums of `{module}`.', names)
    code = Rust(f'crates/naga_text/src/derived/{module}.rt', f'Appends the texts of the enums of `{module}`.', ghosts, code_names)
    for it in enums:
        definitions.add(it.definitions(), it.definition)
        code.add(it.dispatcher())
        for row in it.rows:
            if it.has_function(row):
                code.add(it.function_of(row))
    yield definitions
    yield code


def files(declarations):
    enums = all_enums(declarations)
    for module in dict.fromkeys(it.declaration.module for it in enums):
        own = [it for it in enums if it.declaration.module == module]
        yield from module_files(declarations, module, own, [it for it in enums if it not in own])
