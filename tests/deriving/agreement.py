"""naga_schema: the lemmas that the schema of a type accepts the JSONs that its codec reads."""
from deriving import shapes, tables
from deriving.codecs import Codecs, constructor, modules_of
from deriving.declarations import snake
from deriving.files import Antt, Imports
from deriving.naming import camel
from deriving.plain_kinds import kinds

FOLDER = 'crates/naga_schema/proofs/derived_lemmas'
BY_HAND = {
    'std.proofs.Common': 'refl ℕ drop map',
    'naga_json.specs.Codec': 'boolean_codec byte_codec handle_codec long_codec nonzero_codec short_codec text_codec word_codec',
    'naga_json.specs.FlagSets': 'barrier_codec memory_decorations_codec storage_access_codec',
    'naga_json.specs.Form': 'form_row',
    'naga_json.specs.Lists': 'array_codec list_codec',
    'naga_json.specs.Variants': 'held_in',
    'naga_schema.specs.derived.Types': 'shape_of',
    'naga_schema.specs.Tables': 'variant_of',
    'naga_schema.specs.declared.derived.statement.TheConstants': 'STATEMENT_VARIANTS',
    'naga_schema.specs.declared.derived.type_name.TypeName.TheVariants': 'as type',
    'naga_schema.proofs.AgreesLemmas': 'Agrees AgreesRows agrees-array agrees-as agrees-data_enum agrees-enum agrees-field agrees-list '
                                       'agrees-no_rows agrees-none agrees-optional_field agrees-row agrees-struct',
    'naga_schema.proofs.RangeAgree': 'agrees-Range',
}


class Agreement:
    """What is written of the lemmas, and how."""

    def __init__(self, declarations):
        self.codecs, self.types = Codecs(declarations), tables.Types(declarations)

    def lemma(self, type_):
        """Returns the name of the lemma about a type."""
        name = self.types.name(type_)
        return f'agrees-{name}' if name else f'agrees-{self.leaf(type_)}'

    def leaf(self, type_):
        return tables.LEAVES.get(type_, snake(type_)).lower()

    def fields(self, of):
        """Returns the lines about the fields of a struct or a variant."""
        lines = []
        for it, shape in self.codecs.parts(of):
            kind = 'optional_field' if shape[0] == 'option' else 'field'
            lines.append(f'    (agrees-{kind} depth _ _ {self.codecs.codec(shape)} _ _ ({self.lemma(tables.present(it))} depth)\n')
        return ''.join(lines) + '    (agrees-none depth)' + ')' * len(lines)

    def struct(self, name, table, decode, of):
        """Returns the lemma about an object with fields."""
        return f'agrees-{name}', f'''pub agrees-{name} : (depth : ℕ) → Agrees depth type.{name} {decode}
unfolding shape_of
agrees-{name} depth =
    agrees-struct depth type.{name} _ {table} _ refl refl
{self.fields(of)}'''

    def rows(self, declaration, variants):
        """Returns the lines about the variants that hold data."""
        lines = []
        for it in variants:
            name = constructor(declaration, it)
            decode = f'(λ held. (form_row {name} held).1)' if self.codecs.is_form(it) else f'(held_in {name})'
            if it.form == 'struct':
                held = f'(agrees-{self.types.name(declaration.name)}{it.name} depth)'
            else:
                held = f'(agrees-as depth _ _ _ ({self.lemma(tables.held_type(it))} depth))'
            lines.append(f'    (agrees-row depth _ _ {decode} _ _ {held}\n')
        return ''.join(lines) + '    (agrees-no_rows depth)' + ')' * len(lines)

    def enum(self, declaration):
        """Yields the lemmas about an enum and the fields of its variants. Of one with blocks the last is about its other variants."""
        name, word, simple = declaration.name, snake(declaration.name), self.codecs.simple(declaration)
        for it in simple:
            if it.form == 'struct':
                yield self.struct(f'{name}{it.name}', '_', f'(held_in {constructor(declaration, it)})', it)
        rows = self.rows(declaration, [it for it in simple if it.form != 'unit'])
        if len(simple) < len(declaration.variants):
            others = len(declaration.variants) - len(simple)
            yield f'agrees-simple_{word}', f'''-- the variants of `{name}` that contain data and no block
pub agrees-simple_{word} : (depth : ℕ) → AgreesRows depth (drop {others} (map variant_of {word.upper()}_VARIANTS)) simple_{word}_rows
agrees-simple_{word} depth =
{rows}'''
            return
        if any(it.form == 'unit' for it in declaration.variants):
            head = f'agrees-enum depth type.{name} _ _ {word}_names {word}_rows refl refl'
        else:
            head = f'agrees-data_enum depth type.{name} _ {word}_rows refl'
        yield f'agrees-{name}', f'''pub agrees-{name} : (depth : ℕ) → Agrees depth type.{name} {self.codecs.definition(declaration)}.decode
unfolding shape_of
agrees-{name} depth =
    {head}
{rows}'''

    def collection(self, type_, shape):
        """Returns the lemma about a list."""
        name, element = self.types.name(type_), self.codecs.codec(shape[-1])
        inner = type_[len('Vec<'):-1] if shape[0] == 'list' else type_[1:].split(';')[0]
        kind = 'list' if shape[0] == 'list' else 'array'
        length = '' if kind == 'list' else f' {shape[1]}'
        return f'agrees-{name}', f'''pub agrees-{name} : (depth : ℕ) → Agrees depth type.{name} {self.codecs.codec(shape)}.decode
unfolding shape_of
agrees-{name} depth = agrees-{kind} depth type.{name} _{length} {element}.decode refl ({self.lemma(inner)} depth)'''

    def items(self, declaration):
        """Yields the lemmas about a declaration, each with its name, after those about the lists in it."""
        for it, shape in self.codecs.declarations.parts(declaration.all_fields()):
            if shape[0] in ('list', 'array') and not tables.contains_blocks(it):
                yield self.collection(tables.present(it), shape)
        if declaration.is_struct:
            word = snake(declaration.name)
            decode = f'{self.codecs.definition(declaration)}.decode'
            yield self.struct(self.types.name(declaration.name), f'{word}_fields', decode, declaration)
        else:
            yield from self.enum(declaration)


def inner_first(codecs):
    """Returns the declarations, each after those that its values contain."""
    found = {}

    def add(it):
        for _, shape in codecs.declarations.parts(it.all_fields()):
            while shape[0] in ('option', 'list', 'array'):
                shape = shape[-1]
            if shape[0] == 'declared' and shape[1] != it.name:
                add(codecs.declarations[shape[1]])
        if it in codecs.made:
            found.setdefault(it.name, it)

    for it in codecs.made:
        add(it)
    return [*found.values()]


def files(declarations):
    agreement = Agreement(declarations)
    found, lemmas = {}, set()
    for it in inner_first(agreement.codecs):
        module = f'naga_schema.proofs.derived_lemmas.{camel(shapes.module(it))}Agree'
        for name, text in agreement.items(it):
            if name not in lemmas:
                lemmas.add(name)
                found.setdefault(module, []).append((name, text))
    others = {
        'naga_schema.proofs.LeavesAgree': ' '.join(agreement.lemma(it) for it in tables.LEAVES),
        'naga_schema.proofs.derived_lemmas.KindLeavesAgree': ' '.join(agreement.lemma(it.name) for it in kinds(declarations)),
        **{module: ' '.join(name for name, _ in texts) for module, texts in found.items()},
    }
    for module, texts in found.items():
        made = Antt(f'{FOLDER}/{module.rsplit(".", 1)[1]}.antt', '', Imports(BY_HAND, modules_of(agreement.codecs), others))
        for name, text in texts:
            made.add(text, name)
        yield made
