"""naga_valid: the walk over what an expression or a statement refers to. The definition of what that is stays written by hand."""
from deriving.declarations import Unreadable, snake
from deriving.files import Antt, Imports, Rust, wrapped
from deriving.naming import antt_type, article, contains_blocks, rust_variable
from deriving.operands import ORDINALS, finders, operands, parts, parts_at_ends
from deriving.rust import pattern

# The functions that visit so many expressions.
VISITS = ('none', 'one', 'two', 'three')
# How wide a line of a table may be.
WIDTH = 120


def walked(list_):
    """Returns the end of the signature of a function that visits a list of references."""
    words = f'ensures {{ IsWalk V.visits visitor.old ({list_}) result'.split(' ')
    return ') -> ControlFlow<V::Break>\n' + wrapped([*words, 'visitor.new }'], ' ' * 4, WIDTH, ' ' * 8) + '{'


def is_walk(list_, call):
    """Returns what the contract of a call says, for a list of references."""
    return f'IsWalk g.V.Visitor.visits c.args.visitor.now ({list_}) {call}.result {call}.new.visitor'


class Walk:
    """The walk over the references of one type."""

    def __init__(self, declarations, name):
        self.declarations, self.declaration, self.word = declarations, declarations[name], snake(name)
        self.references = f'references_of_{self.word}'
        defined = [name for it in self.parts() for name in [f'operands_of_{snake(it)}', *finders(declarations, it)]]
        self.specs = {
            'std.specs.Prelude': '◌≡◌ ◌∷◌ [] ◌++◌ ℕ List Option Some None option_to_list',
            'std.specs.Option': 'option_map',
            'naga_valid.specs.declared.reference.Reference.TheVariants': 'as reference',
            'naga_valid.specs.Reference': 'operands present',
            f'naga_valid.specs.{name}s': ' '.join([self.references, *defined]),
            'naga_valid.specs.Visits': 'IsWalk',
        }

    def parts(self):
        return parts(self.declarations, self.declaration)

    def of(self, variant):
        return operands(self.declarations, variant.fields)

    def forms(self, variant):
        return [it.form for it in self.of(variant)]

    def referring(self, variant):
        """Returns the fields of a variant that refer to something."""
        return [it for it in variant.fields if self.declarations.refers(self.declarations.shape(it.type))]

    def by_reference(self, field):
        """Returns whether functions take the field by reference."""
        return self.declarations.shape(field.type)[0] in ('declared', 'list')

    def fail(self, variant):
        raise Unreadable(variant.where, f'no walk is known over what {self.declaration.name}::{variant.name} contains')

    # ---- the table

    def callee(self, variant):
        """Returns the function that visits the references of a variant, and what it is called with."""
        made, forms = self.of(variant), self.forms(variant)
        if set(forms) <= {'one'} and len(made) < len(VISITS):
            return VISITS[len(made)], [it.read for it in made]
        if forms == ['element']:
            return 'single', [f'Reference::{made[0].of}({made[0].read})']
        if forms == ['range']:
            return 'whole_range', [made[0].read]
        passed = [('' if self.by_reference(it) else '*') + rust_variable(it.name) for it in self.referring(variant)]
        return f'visit_{snake(variant.name)}', passed

    def row(self, variant):
        callee, given = self.callee(variant)
        head = ' ' * 12 + pattern(self.declaration, variant, self.referring(variant)) + ' =>'
        call = f'{callee}({", ".join(["visitor", *given])}),\n'
        one = f'{head} {call}'
        return one if len(one) <= WIDTH + 1 else f'{head}\n{" " * 16}{call}'

    def implementation(self):
        rows = ''.join(self.row(it) for it in self.declaration.variants)
        blocks = any(contains_blocks(it) for it in self.declaration.all_fields())
        about = f'/// Those in the blocks of a {self.word} belong to the statements of these blocks.\n' if blocks else ''
        return f'''{about}impl Refers for {self.declaration.name} {{
    ghost references = {{ {self.references} }};

    // One line for each variant.
    #[rattlefmt::skip]
    fn visit_references<V: Visitor>(&self, visitor: &mut V) -> ControlFlow<V::Break> {{
        match self {{
{rows}        }}
    }}
}}'''

    # ---- the functions that visit what a variant contains

    def head(self, variant, list_):
        """Returns the name and the signature of the function for a variant, which visits this list of references."""
        made = f'fn visit_{snake(variant.name)}<V: Visitor>(\n    visitor: &mut V,\n'
        for field in self.referring(variant):
            is_list = self.declarations.shape(field.type)[0] == 'list'
            type_ = '&[Handle<Expression>]' if is_list else f'&{field.type}' if self.by_reference(field) else field.type
            made += f'    {rust_variable(field.name)}: {type_},\n'
        return made + walked(list_)

    def visit(self, variant):
        """Returns the function that visits the references of a variant for which the table has no short form."""
        forms = self.forms(variant)
        if set(forms) <= {'one', 'option', 'found'}:
            return self.visit_optional(variant)
        if forms[-1] == 'part':
            return self.visit_part(variant)
        if forms[0] == 'element' and forms[1:] in (['list'], ['list', 'option']):
            return self.visit_element_and_list(variant)
        return self.fail(variant)

    @staticmethod
    def local(operand):
        """Returns the variable for an expression that is found in a part."""
        return f'{rust_variable(operand.field)}_{operand.of.split("_")[0]}'

    def visit_optional(self, variant):
        made, local = self.of(variant), self.local
        finds = ''.join(f'    let {local(it)} = {it.rust};\n' for it in made if it.form == 'found')
        listed = [{'one': f'Some({it.rust})', 'option': it.rust}.get(it.form) or local(it) for it in made]
        visits = f'    each_present(visitor, &[{", ".join(listed)}])\n'
        if len(visits) > WIDTH + 1:
            visits = '    each_present(visitor, &[\n' + wrapped([it + ',' for it in listed], ' ' * 8, WIDTH) + '    ])\n'
        texts = {'one': 'Some {} ∷ ', 'option': '{} ∷ ', 'found': '{}.now ∷ '}
        list_ = ''.join(texts[it.form].format(f'{it.of} {rust_variable(it.field)}' if it.form == 'found' else it.rust) for it in made)
        return f'''/// Visits the expressions that {article(variant.name)} contains.
#[inline(never)]
#[rattlefmt::skip]
{self.head(variant, f"present ({list_}[])")}
{finds}{visits}}}'''

    def visit_element_and_list(self, variant):
        element, list_, *rest = (it.rust for it in self.of(variant))
        of = self.of(variant)[0].of
        tail, call = f'operands {list_}.entry.now', f'visitor.visit_each({list_})'
        if rest:
            tail = f'({tail} ++ option_to_list (option_map reference.Expression {rest[0]}))'
            call = f'each_and(visitor, {list_}, {rest[0]})'
        return f'''/// Visits the references of {article(variant.name)}.
{self.head(variant, f"reference.{antt_type(of)} {element} ∷ {tail}")}
    match visitor.visit(Reference::{of}({element})) {{
        ControlFlow::Continue(()) => {call},
        ControlFlow::Break(stop) => ControlFlow::Break(stop),
    }}
}}'''

    def ending_in_part(self, variant, expression, part):
        """Returns the references of a variant at whose end there is a part, from forms of the others' names and the part's name."""
        *before, last = self.of(variant)
        listed = ''.join(expression.format(it.rust) + ' ∷ ' for it in before)
        return f'operands ({listed}operands_of_{snake(last.of)} {part.format(last.rust)})'

    def visits_in_part(self, variant):
        """Yields the variants of the part at the end of a variant, each with the function that visits its expressions, and the arguments."""
        *before, last = self.of(variant)
        for inner in self.declarations[last.of].variants:
            given = [it.rust for it in before] + [it.read for it in self.of(inner)]
            if len(given) >= len(VISITS):
                self.fail(variant)
            yield inner, VISITS[len(given)], given

    def count_in_part(self, variant):
        """Returns how many expressions each variant of the part at the end of a variant contains, if these are equally many, or else 0."""
        counts = {len(self.of(it)) for it in self.declarations[self.of(variant)[-1].of].variants}
        return counts.pop() if len(counts) == 1 else 0

    def visit_part(self, variant):
        last = self.of(variant)[-1]
        if count := self.count_in_part(variant):
            names, callee = ORDINALS[:count], VISITS[len(self.of(variant)) - 1 + count]
            given = ', '.join(['visitor', *(it.rust for it in self.of(variant)[:-1]), *names])
            return f'''/// Visits the expressions that {article(variant.name)} contains.
{self.head(variant, self.ending_in_part(variant, "{}", "{}.now"))}
    let ({", ".join(names)}) = operands_of_{snake(last.of)}({last.rust});
    {callee}({given})
}}'''
        rows = ''
        for inner, callee, given in self.visits_in_part(variant):
            head = pattern(self.declarations[last.of], inner, self.referring(inner))
            rows += f'        {head} => {callee}({", ".join(["visitor", *given])}),\n'
        return f'''/// Visits the expressions that {article(variant.name)} contains.
#[rattlefmt::skip]
{self.head(variant, self.ending_in_part(variant, "{}", "{}.now"))}
    match {last.rust} {{
{rows}    }}
}}'''

    def find_all(self, part):
        """Returns the function that finds the expressions that a part contains, of whose variants each contains equally many."""
        word, rows, count = snake(part.name), '', len(self.of(part.variants[0]))
        for variant in part.variants:
            rows += f'        {pattern(part, variant, self.referring(variant))} => ({", ".join(it.read for it in self.of(variant))}),\n'
        list_ = ''.join(f'result.{at} ∷ ' for at in range(count))
        return f'''/// Returns the expressions that {article(part.name)} contains.
#[rattlefmt::skip]
fn operands_of_{word}({word}: &{part.name}) -> ({", ".join(["Handle<Expression>"] * count)})
    ensures {{ operands_of_{word} {word}.now ≡ {list_}[] }}
{{
    match {word} {{
{rows}    }}
}}'''

    def find(self, part, at, name):
        """Returns the function that finds one of the expressions that a part contains."""
        word, rows = snake(part.name), ''
        for variant in part.variants:
            made = self.of(variant)[at:at + 1]
            used = [it for it in variant.fields if made and it.name == made[0].field]
            value = 'None' if not made else f'Some({made[0].read})' if made[0].form == 'one' else made[0].read
            rows += f'        {pattern(part, variant, used)} => {value},\n'
        which = '' if name.startswith('operand') else f'{ORDINALS[at]} '
        return f'''/// Returns the {which}expression that {article(part.name)} contains.
fn {name}({word}: &{part.name}) -> Option<Handle<Expression>>
    ensures {{ result ≡ {name} {word}.now }}
{{
    match {word} {{
{rows}    }}
}}'''

    # ---- the answers

    def answers(self, function, goals):
        """Returns the file of the answers of a function."""
        made = Antt(f'crates/naga_valid/proofs/derived/{self.word}/{function}/Answers.antt', '', Imports(
            {'std.proofs.Common': 'subst sym'}, self.specs,
            {f'naga_valid.proofs.derived.{self.word}.{function.replace("/", ".")}.Goals': 'as goal'}))
        for name, text in goals:
            made.add(f'pub {name} : goal.{name}\n{name} g c =\n    {text}')
        return made

    @staticmethod
    def of_arms(arms, list_):
        """Yields the answers of a match: each arm calls a function whose contract is that of the match at this variant.

        The prover finds those of short lists by itself. They are not written, so that an arm that calls another function is refused for
        what it visits, and not for what an answer names.
        """
        called = set()
        for variant, callee, count in arms:
            call = f'c.{callee}-in-{variant.name}' if callee in called else f'c.{callee}'
            called.add(callee)
            if count > 2:
                yield f'returns-in-{variant.name}', f'subst (λ value. {is_walk(list_, call)}) (sym c.in-{variant.name}.is) {call}.ensures'

    def of_found(self, variant):
        """Yields the answer of a function that finds expressions in parts, and then visits them."""
        texts = {'one': 'Some c.args.{} ∷ ', 'option': 'c.args.{} ∷ ', 'found': 'c.{}.ensures i ∷ '}
        listed = ''.join(texts[it.form].format(f'{it.of}-{self.local(it)}' if it.form == 'found' else it.rust) for it in self.of(variant))
        yield 'returns', (f'subst (λ (list : List (Option ℕ)). {is_walk("present list", "c.each_present")})\n'
                          f'    (λ i. {listed}[])\n    c.each_present.ensures')

    def of_all_found(self, variant):
        """Yields the answer of a function that finds all expressions in a part, and then visits them."""
        call = f'c.{VISITS[len(self.of(variant)) - 1 + self.count_in_part(variant)]}'
        before = ''.join(f'c.args.{it.rust} ∷ ' for it in self.of(variant)[:-1])
        found = f'c.operands_of_{snake(self.of(variant)[-1].of)}-{ORDINALS[0]}'
        list_ = f'operands ({before}list)' if before else 'operands list'
        yield 'returns', f'subst (λ list. {is_walk(list_, call)}) (sym {found}.ensures) {call}.ensures'

    # ---- the files

    def source(self):
        about = (f'The references of {self.word}s.\n//!\n//! Functions that list expressions are not inlined into the table, which would '
                 f'clear these\n//! lists for each {self.word}.')
        made = Rust(f'crates/naga_valid/src/derived/{self.word}.rt', about, Imports(self.specs), Imports({
            'crate::reference': 'Reference', 'crate::references': 'Refers', 'crate::visitor': 'Visitor',
            'crate::references::operands': f'each_and each_present single whole_range {" ".join(VISITS)}', 'naga_arena': 'Handle',
            'naga_ir': ' '.join(it.name for it in self.declarations.values() if it.crate == 'naga_ir'), 'std::ops': 'ControlFlow'}))
        made.add(self.implementation())
        for variant in self.visited():
            made.add(self.visit(variant))
            if 'part' in self.forms(variant) and self.count_in_part(variant):
                made.add(self.find_all(self.declarations[self.of(variant)[-1].of]))
        for part in self.parts():
            if part not in parts_at_ends(self.declarations, self.declaration):
                for at, name in enumerate(finders(self.declarations, part)):
                    made.add(self.find(self.declarations[part], at, name))
        return made

    def visited(self):
        """Returns the variants that have a function of their own."""
        return [it for it in self.declaration.variants if self.callee(it)[0].startswith('visit_')]

    def files(self):
        yield self.source()
        table = [(it, self.callee(it)[0], 0 if 'list' in self.forms(it) else len(self.of(it))) for it in self.declaration.variants]
        yield self.answers(f'{self.declaration.name}Refers/visit_references', self.of_arms(table, f'{self.references} value'))
        for variant in self.visited():
            function, forms = f'visit_{snake(variant.name)}', self.forms(variant)
            if 'part' in forms and self.count_in_part(variant):
                yield self.answers(function, self.of_all_found(variant))
            elif 'part' in forms:
                arms = [(inner, callee, len(given)) for inner, callee, given in self.visits_in_part(variant)]
                yield self.answers(function, self.of_arms(arms, self.ending_in_part(variant, 'c.args.{}', 'value')))
            elif forms.count('found') > 1:
                yield self.answers(function, self.of_found(variant))


def files(declarations):
    for name in ('Expression', 'Statement'):
        yield from Walk(declarations, name).files()
