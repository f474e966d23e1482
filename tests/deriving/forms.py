"""naga_meaning: the proof that the forms of expressions and statements, which are these without their handles, are kept by a renaming."""
from deriving.declarations import snake
from deriving.files import Antt, Imports
from deriving.naming import antt_pattern, antt_variable, contains_blocks, plural

SPECS = {
    'std.proofs.Common': '◌≡◌ refl ℕ Option Some None',
    'std.specs.Option': 'option_map',
    'naga_compact.specs.Renaming': 'Renaming',
    'naga_meaning.specs.Forms': 'erasing of_expression of_statement expression_form statement_form',
}
ERASED = 'option_map erasing.expressions'
OPTIONAL = f'''  -- an optional handle is erased, whether it was renamed before or not
  optional : (rename : ℕ → ℕ) (handle : Option ℕ) → {ERASED} (option_map rename handle) ≡ {ERASED} handle
  optional rename None = refl
  optional rename (Some handle) = refl'''


class Erased:
    """The lemma about one type."""

    def __init__(self, declarations, declaration):
        self.declarations, self.declaration = declarations, declaration
        self.word = snake(declaration.name)
        self.is_form = declaration.name in ('Expression', 'Statement')
        self.name = f'{self.word}_form-renamed' if self.is_form else f'{self.word}-erased'

    def varies(self, field):
        """Returns whether the erased field is equal to that of the renamed one by a lemma only, and not by computation."""
        shape = self.declarations.shape(field.type)
        is_part = shape[0] == 'declared' and not self.declarations[shape[1]].is_struct
        return not contains_blocks(field) and (shape[0] == 'option' or is_part) and self.declarations.refers(shape)

    def erased(self, field):
        """Returns the field without its handles, at the position `i` of a path."""
        shape, name = self.declarations.shape(field.type), antt_variable(field.name, self.word)
        if self.varies(field):
            return f'(optional r.{plural(snake(shape[1][1]))} {name} i)' if shape[0] == 'option' else f'({snake(shape[1])}-erased {name} i)'
        if shape[0] == 'declared' and not contains_blocks(field) and self.declarations.refers(shape):
            return f'(rename_{snake(shape[1])} erasing {name})'
        is_erased = shape[0] == 'handle' and 'not renamed' not in self.declarations[shape[1]].facts
        return '0' if is_erased else name

    def rows(self, variant):
        """Returns the rows for a variant whose equation needs a lemma. With a list, a row for each optional handle that may be present."""
        pattern = antt_pattern(self.declaration, variant)
        varying = [it for it in variant.fields if self.varies(it)]
        if not varying:
            return []
        if any(it.startswith('value ') for it in variant.facts):
            name = antt_variable(varying[0].name, self.word)
            return [f'{self.name} {pattern.replace(f" {name}", f" {value}")} = refl' for value in ('None', '(Some handle)')]
        made = pattern[1:-1]
        for it in variant.fields:
            made = f' {made} '.replace(f' {antt_variable(it.name, self.word)} ', f' {self.erased(it)} ', 1).strip()
        return [f'{self.name} {pattern} = λ i. ' + (f'of_{self.word} ({made})' if self.is_form else made)]

    def lemma(self):
        rows = [row for it in self.declaration.variants for row in self.rows(it)]
        if not rows:
            rows = [f'{self.name} {antt_pattern(self.declaration, self.declaration.variants[0])} = refl']
        if len(self.declaration.variants) > 1:
            rows.append(f'{self.name} _ = refl')
        form, renamed = f'{self.word}_form', f'rename_{self.word}'
        goal = f'{form} ({renamed} r of) ≡ {form} of' if self.is_form else f'{renamed} erasing ({renamed} r of) ≡ {renamed} erasing of'
        head = f'{"pub " * self.is_form}{self.name} : (of : {self.declaration.name}) → {goal}'
        return '\n'.join(f'  {it}' for it in [head, *rows])


def parts_of(declarations, name):
    """Returns the enums with handles that values of an enum contain, and then the enum itself."""
    shapes = [declarations.shape(it.type) for it in declarations[name].all_fields() if not contains_blocks(it)]
    parts = [it[1] for it in shapes if it[0] == 'declared' and declarations.refers(it) and not declarations[it[1]].is_struct]
    return [*dict.fromkeys(parts), name]


def files(declarations):
    names = dict.fromkeys([*parts_of(declarations, 'Expression'), *parts_of(declarations, 'Statement')])
    imports = Imports(SPECS)
    about = 'The forms of expressions and statements do not depend on their handles.'
    made = Antt('crates/naga_meaning/proofs/derived/FormsLemmas.antt', about, imports)
    items = []
    for name in names:
        declaration = declarations[name]
        where = f'{declaration.crate}.specs.declared.{declaration.module.replace("/", ".")}.{name}'
        imports.add(where, name)
        imports.add(where if any(map(contains_blocks, declaration.all_fields())) else f'{where}.TheVariants', f'as {snake(name)}')
        imports.add('naga_compact.specs.derived.Renaming', f'rename_{snake(name)}')
        items.append(Erased(declarations, declaration).lemma())
    made.add('module _ (r : Renaming) where\n' + '\n\n'.join([OPTIONAL, *items]))
    yield made
