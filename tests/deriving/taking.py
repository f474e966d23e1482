"""How structs and enums are taken from tokens, with a function for each variant that has named fields.

Expressions and statements are taken in crates of their own, by functions, since only naga_json_tokens can implement its traits for types of
naga_ir. All else is taken there.
"""
from deriving import shapes
from deriving.codecs import Codecs, constructor, modules_of
from deriving.declarations import snake
from deriving.files import RUST_WIDTH, Antt, Imports, Rust, wrapped
from deriving.naming import article
from deriving.plain_kinds import kinds
from deriving.reading import OWN, clause, in_crate, signature, value_of

TOKENS = 'naga_json_tokens'
# The declarations whose values are taken from tokens. All that they contain is, too.
TAKEN = ('Expression', 'Statement', 'LocalVariable', 'SwitchValue')
GHOSTS = {
    'std.specs.Prelude': '◌≡◌ IfSome Some []',
    'naga_json.specs.Objects': 'choose find_row',
    'naga_json.specs.Variants': 'held_in',
    'naga_json_tokens.specs.Takes': 'Takes',
}
SOURCES = {
    TOKENS: 'Reader Take take_struct',
    f'{TOKENS}::floats': 'take_double take_single',
    f'{TOKENS}::tokens': 'take_end take_name',
    f'{TOKENS}::values': 'Kind',
    f'{TOKENS}::variants': 'Variants take_holder take_variant',
    'json': 'Token',
    'std::alloc': 'Global',
}
# How many variants the function at most matches that takes one by its name.
VARIANTS = 12
# The takers of floats.
FLOATS = {'binary32': 'take_single', 'binary64': 'take_double'}
FIELDS = '#[tactic(auto, using({}::proofs::TakesPartsLemmas::takes_struct), unfolding(naga_json::specs::Fields::struct_in))]\n'
HOLDS = '#[tactic(auto, using({}::proofs::TakesMapLemmas::takes_map))]\n'
ARGUMENTS = ['alloc: Global', "reader: &mut Reader<'_>"]


def taken(codecs):
    """Returns the declarations whose values are taken, in the order of the codecs."""
    found, left = set(), [*TAKEN]
    while left:
        name = left.pop()
        if name in codecs.declarations and name not in found:
            found.add(name)
            declaration = codecs.declarations[name]
            fields = [*declaration.fields, *(field for it in codecs.simple(declaration) for field in it.fields)]
            left += [shape[1] for _, shape in codecs.declarations.parts(fields) if shape[0] == 'declared']
    return [it for it in codecs.made if it.name in found]


def struct_body(made, parts, indent):
    """Returns the expression that takes the fields of an object and makes a value of them."""
    listed = [it.name for it, _ in parts]
    one = f'{indent}take_struct! {{ alloc, reader => {made} {{ {", ".join(listed)} }} }}'
    if len(one) <= RUST_WIDTH:
        return one
    inner = wrapped([it + ',' for it in listed], indent + '    ', RUST_WIDTH)
    return f'{indent}take_struct! {{ alloc, reader => {made} {{\n{inner}{indent}}} }}'


class Takers:
    """The functions that take the values of one declaration."""

    def __init__(self, codecs, declaration):
        self.codecs, self.declaration = codecs, declaration
        self.name, self.word, self.view = declaration.name, snake(declaration.name), shapes.view(declaration)
        self.simple, self.is_own = codecs.simple(declaration), declaration.name in OWN
        # The crate that has the lemmas, as it is named where the values are taken.
        self.lemmas = TOKENS if self.is_own else 'crate'
        self.units = [it for it in self.simple if it.form == 'unit']
        self.held = [it for it in self.simple if it.form != 'unit']
        self.found = f'({self.view} found)' if self.view else 'found'
        # The variants in groups, of which each is matched by a function.
        self.groups = [self.held[at:at + VARIANTS] for at in range(0, len(self.held), VARIANTS)]

    @property
    def is_whole(self):
        """Returns whether no variant contains a block."""
        return self.simple == self.declaration.variants

    def takes(self, meaning):
        """Returns the contract of a function that takes a value of this meaning."""
        return clause('IfSome result ', f'(λ found. Takes {meaning} {self.found} reader.old reader.new)')

    def variant_taker(self, variant):
        """Returns the function that takes a variant with named fields."""
        name = constructor(self.declaration, variant)
        return f'''/// Takes what {article(variant.name)} holds.
{FIELDS.format(self.lemmas)}{signature(f"fn take_{name}", ARGUMENTS, f"Option<{self.name}>")}
{self.takes(f"(held_in {name})")}
{{
{struct_body(f"{self.name}::{variant.name}", self.codecs.parts(variant), "    ")}
}}'''

    def arm(self, variant, indent):
        """Returns the arm that takes a variant by its name."""
        head = f'{indent}"{variant.name}" =>'
        if variant.form == 'struct':
            call = f'take_{constructor(self.declaration, variant)}(alloc, reader)'
            one = f'{head} {call},\n'
            return one if len(one) <= RUST_WIDTH + 1 else f'{head} {{\n{indent}    {call}\n{indent}}}\n'
        float_ = self.codecs.format(variant)
        call = f'{FLOATS[float_]}(reader)' if float_ else 'Take::take(alloc, reader)'
        return f'{head} Some({self.name}::{variant.name}({call}?)),\n'

    def later(self, at):
        """Returns the name of the function that takes a variant of a group, or of a later one."""
        return f'take_{self.word}_from_{snake(self.groups[at][0].name)}'

    def match(self, at, indent):
        """Returns the expression that takes a variant of a group, or of a later one, by its name."""
        last = f'{self.later(at + 1)}(alloc, reader, name)' if at + 1 < len(self.groups) else 'None'
        arms = ''.join(self.arm(it, indent + '    ') for it in self.groups[at])
        return f'{indent}match name {{\n{arms}{indent}    _ => {last},\n{indent}}}'

    def tactic(self, at):
        return HOLDS.format(self.lemmas) if any(it.form == 'tuple' for it in self.groups[at]) else ''

    def group_taker(self, at, function, about, is_public=False):
        """Returns the function that takes a variant of a group, or of a later one, by its name."""
        rows = f'{self.codecs.table(self.declaration)}_rows'
        head = f'{"pub(crate) " if is_public else ""}fn {function}'
        return f'''/// Takes what {about} holds.
{self.tactic(at)}{signature(head, [*ARGUMENTS, "name: &str"], f"Option<{self.name}>")}
{self.takes(f"(λ held. choose ({rows} held) name.now)")}
{{
{self.match(at, "    ")}
}}'''

    def later_takers(self):
        """Returns the functions that take the variants of all groups but the first one."""
        return [
            self.group_taker(at, self.later(at), f'{article(self.groups[at][0].name)} or a later variant') for at in range(1, len(self.groups))]

    def named_body(self, indent):
        arms = ''.join(f'{indent}    "{it.name}" => Some({self.name}::{it.name}),\n' for it in self.units)
        return f'{indent}match name {{\n{arms}{indent}    _ => None,\n{indent}}}'

    def own_takers(self):
        """Returns the functions that take the variants of an enum in a crate of its own: those without blocks, if it has others."""
        held, about = ('held', '') if self.is_whole else ('simple', ' and no block')
        return [f'''/// Returns {article(self.name)} that is a name alone.
pub(crate) fn named_{self.word}(name: &str) -> Option<{self.name}>
{clause("IfSome result ", f"(λ found. find_row {self.word}_names name.now ≡ Some {self.found})")}
{{
{self.named_body("    ")}
}}''', self.group_taker(0, f'take_{held}_{self.word}', f'{article(self.name)} that contains data{about}', True)]

    def whole_taker(self):
        """Returns the function that takes a whole value, in a crate of its own."""
        return f'''/// Takes {article(self.name)}.
{signature(f"pub fn take_{self.word}", ARGUMENTS, f"Option<{self.name}>")}
{self.takes(f"{self.codecs.definition(self.declaration)}.decode")}
{{
    match reader.next()? {{
        Token::String(name) => named_{self.word}(name),
        Token::BeginObject => {{
            let name = take_name(reader)?;
            let found = take_held_{self.word}(alloc, reader, name)?;
            take_end(reader)?;
            Some(found)
        }}
        _ => None,
    }}
}}'''

    def whole_answers(self):
        """Returns the answers of the function that takes a whole value, in a crate of its own."""
        crate, decode = OWN[self.name], f'{self.codecs.definition(self.declaration)}.decode'
        goal = f'{crate}.proofs.derived.take.take_{self.word}.Goals'
        imports = Imports(PROOFS, shapes.VIEW_MODULES, modules_of(self.codecs), {goal: 'as goal'})
        made = Antt(f'crates/{crate}/proofs/derived/take/take_{self.word}/Answers.antt', '', imports)
        made.add(f'''pub returns-in-String : goal.returns-in-String
returns-in-String c =
    takes_named_as {self.view} c.in-String.name.now {decode} c.named_{self.word}.result c.args.reader.now c.next.new.self (search rules) c.named_{self.word}.ensures''')
        made.add(f'''pub returns-in_ok-take_end-in-BeginObject : goal.returns-in_ok-take_end-in-BeginObject
returns-in_ok-take_end-in-BeginObject c =
    let name = c.in_ok-name-in-BeginObject in
    let found = c.in_ok-found-in-BeginObject in
    takes_holder name.name.now (λ j. choose ({self.word}_rows j) name.name.now) ({self.view} found.found) {decode} ({self.view} found.found) c.args.reader.now c.next.new.self _ _ c.take_end.new.reader
    (search rules) name.ensures found.ensures c.in_ok-take_end-in-BeginObject.ensures (λ j is. is)''')
        return made

    def ghosts(self, listed):
        """Returns the ghost items of an implementation: what a JSON represents, and those that are listed."""
        module, value = value_of(self.codecs, self.declaration)
        items = [('Meaning', value), ('value_of', self.view or 'λ value. value'), *listed]
        return f'    ghost use Rattle.{module}.{{{value}}};\n\n' + ''.join(f'    ghost {name} = {{ {it} }};\n\n' for name, it in items)

    def implementation(self, tactic, body):
        """Returns the implementation that takes a whole value."""
        listed = [('meaning', f'{self.codecs.definition(self.declaration)}.decode')]
        return f'''impl Take for {self.name} {{
{self.ghosts(listed)}{tactic}    fn take(alloc: Global, reader: &mut Reader<'_>) -> Option<Self> {{
{body}
    }}
}}'''

    def variants(self):
        """Returns the implementation that takes a variant by its name."""
        tactic = '    ' + self.tactic(0) if self.tactic(0) else ''
        listed = [('names', f'{self.word}_names' if self.units else '[]'), ('rows', f'{self.word}_rows')]
        name, named = ('name', self.named_body('        ')) if self.units else ('_name', '        None')
        return f'''impl Variants for {self.name} {{
{self.ghosts(listed)}    fn named({name}: &str) -> Option<Self> {{
{named}
    }}

{tactic}    fn take_held(alloc: Global, reader: &mut Reader<'_>, name: &str) -> Option<Self> {{
{self.match(0, "        ")}
    }}
}}'''

    def enum_implementations(self):
        """Returns the implementations that take a value of an enum without blocks."""
        called = 'take_variant' if self.units else 'take_holder'
        body = f'        {called}::<{self.name}>(alloc, reader)'
        whole = self.implementation('', body)
        return [self.variants(), whole]

    def items(self):
        """Returns the items that take values of the declaration."""
        if self.declaration.is_struct:
            body = struct_body(self.name, self.codecs.parts(self.declaration), '        ')
            return [self.implementation('    ' + FIELDS.format(self.lemmas), body)]
        made = [self.variant_taker(it) for it in self.held if it.form == 'struct'] + self.later_takers()
        if not self.is_own:
            return made + self.enum_implementations()
        return made + self.own_takers() + ([self.whole_taker()] if self.is_whole else [])


PROOFS = {
    'std.proofs.Common': 'rules',
    'naga_json.specs.Objects': 'choose',
    'naga_json_tokens.proofs.TakesHolderLemmas': 'takes_holder',
    'naga_json_tokens.proofs.TakesMapLemmas': 'takes_named_as',
}


def files(declarations):
    codecs, made = Codecs(declarations), {}

    def add(declaration, text):
        is_own = declaration.name in OWN
        crate, module = (OWN[declaration.name], 'take') if is_own else (TOKENS, shapes.module(declaration))
        if (crate, module) not in made:
            ghosts = Imports(GHOSTS, shapes.VIEW_MODULES, modules_of(codecs))
            about = f'How {article(declaration.name)} is taken.' if is_own else shapes.about(module)
            made[crate, module] = Rust(f'crates/{crate}/src/derived/{module}.rt', about, ghosts, Imports(in_crate(crate, SOURCES)))
        made[crate, module].imports.add(declaration.crate, declaration.name)
        made[crate, module].add(text)

    for it in taken(codecs):
        takers = Takers(codecs, it)
        for text in takers.items():
            add(it, text)
        if takers.is_own and takers.is_whole:
            yield takers.whole_answers()
    for it in kinds(declarations):
        add(it, f'impl Kind for {it.name} {{}}')
    yield from made.values()
