"""naga_json: the laws of the codecs in codecs.py. Each says that what is written is read as it was, and that what is read fits."""
from deriving.codecs import Codecs, by_module, constructor, items, value_imports
from deriving.declarations import snake
from deriving.files import Antt, Imports
from deriving.naming import camel, nested, plural
from deriving.plain_kinds import kinds

PROOFS = {
    'std.proofs.Common': 'refl arith',
    'std.specs.List': 'AllByRecursion',
    'std.specs.Float': 'binary32 binary64',
    'json.specs.Json': 'Json',
    'naga_json.specs.Block': 'statement_codec',
    'naga_json.specs.Codec': 'Codec',
    'naga_json.specs.Form': 'LawfulForm',
    'naga_json.specs.Lawful': 'Gives IsRead Lawful',
    'naga_json.specs.StatementValue': 'BlockValue',
    'naga_json.proofs.CodecLemmas': 'lawful-boolean lawful-byte lawful-handle lawful-integer lawful-long lawful-nonzero lawful-short '
                                    'lawful-text lawful-word',
    'naga_json.proofs.FieldsLemmas': 'LawfulFields contains distinct lawful-field lawful-no_fields lawful-optional_field lawful-struct',
    'naga_json.proofs.FlagSetsLemmas': 'lawful-barrier lawful-memory_decorations lawful-storage_access',
    'naga_json.proofs.FormLemmas': 'LawfulFormVariant lawful-float lawful-holds_form',
    'naga_json.proofs.KindsLemmas': 'lawful-kind',
    'naga_json.proofs.ListsLemmas': 'lawful-array lawful-list',
    'naga_json.proofs.RangeLemmas': 'lawful-range',
    'naga_json.proofs.VariantsLemmas': 'LawfulVariant gives-data_enum gives-enum is_word lawful-holds lawful-holds_fields',
}
FOLDER = 'crates/naga_json/proofs/derived'


class Laws:
    """The laws of the codecs that are made."""

    def __init__(self, codecs):
        self.codecs = codecs

    def law(self, shape, variant=None):
        """Returns the law of the codec or form of a shape, which may be what a variant holds."""
        tag = shape[0]
        if tag == 'option':
            return self.law(shape[1])
        if tag == 'list':
            return f'(lawful-list _ {self.law(shape[1])})'
        if tag == 'array':
            return f'(lawful-array {shape[1]} _ {self.law(shape[2])})'
        name, *arguments = self.codecs.codec(shape, variant).strip('()').split(' ')
        law = ' '.join([f'lawful-{name.rsplit("_", 1)[0]}', *arguments, *['(omega arith)'] * (name == 'integer_codec')])
        return f'({law})' if arguments else law

    def fields(self, of):
        """Returns the law of the fields of a struct or a variant."""
        text = 'lawful-no_fields'
        for _, shape in reversed(self.codecs.parts(of)):
            rest = text if ' ' not in text else f'({text})'
            text = f'lawful-{"optional_field" if shape[0] == "option" else "field"} _ _ _ {self.law(shape)} {rest}'
        return text

    def struct(self, declaration):
        """Yields the laws of a struct."""
        word = snake(declaration.name)
        yield f'lawful-{word}_fields', f'''lawful-{word}_fields : LawfulFields {word}_fields
lawful-{word}_fields = {self.fields(declaration)}'''
        yield f'lawful-{word}', f'''pub lawful-{word} : Lawful {word}_codec
unfolding distinct contains
lawful-{word} = lawful-struct {word}_fields lawful-{word}_fields _ _ (λ value. refl) (λ parts. refl) refl'''

    def variant(self, declaration, variant):
        """Returns the law of a variant, after its name."""
        name = constructor(declaration, variant)
        if variant.form == 'tuple':
            form = self.codecs.is_form(variant)
            holds = f'lawful-holds{"_form" if form else ""} _ _ _ {self.law(self.codecs.parts(variant)[0][1], variant)}'
            return f'lawful-{name}', f'lawful-{name} : Lawful{"Form" if form else ""}Variant {name}\nlawful-{name} = {holds}'
        return f'lawful-{name}', f'''lawful-{name} : LawfulVariant {name}
unfolding distinct contains
lawful-{name} = lawful-holds_fields _ _ _ ({self.fields(variant)}) refl'''

    def reads(self, declaration, variant, whole):
        """Returns that a value which is this variant is read as it was written."""
        shown, held = self.codecs.pattern(declaration, variant)
        law = f'lawful-{constructor(declaration, variant)}'
        read = 'is_word refl' if variant.form == 'unit' else f'{law}.reads {held} fits {whole}.decode (λ held. refl)'
        if not self.codecs.has_form(declaration):
            return f'{shown} fits = {read}'
        if self.codecs.is_form(variant):
            return f'{shown} j fits is = {law}.reads {held} j fits is {whole}.decode (λ held. refl)'
        return f'{shown} j fits is = rw is ({read})'

    def readings(self, declaration, whole):
        """Returns the cases of `reads`, without its name."""
        cases = [self.reads(declaration, it, whole) for it in self.codecs.simple(declaration)]
        if self.codecs.constructors(declaration):
            cases.append(f'other {"j fits is" if self.codecs.has_form(declaration) else "fits"} = absurd fits')
        return cases

    def each(self, declaration, whole):
        """Returns that each row of the table of an enum gives values that fit."""
        held = [it for it in self.codecs.simple(declaration) if it.form != 'unit']
        return nested([f'lawful-{constructor(declaration, it)}.gives {whole}.Fits (λ parts fits. fits) held' for it in held], ', ', 'tt')

    def enum(self, declaration):
        """Yields the laws of an enum."""
        word, value = snake(declaration.name), self.codecs.value(declaration)
        yield from (self.variant(declaration, it) for it in self.codecs.simple(declaration) if it.form != 'unit')
        if self.codecs.table(declaration) != word:
            yield self.simple_enum(declaration)
            return
        is_form, codec = self.codecs.has_form(declaration), self.codecs.definition(declaration)
        units = any(it.form == 'unit' for it in declaration.variants)
        gives = f'gives-enum {codec}.Fits {word}_names {word}_rows (search)' if units else f'gives-data_enum {codec}.Fits {word}_rows'
        reads = f'(value : {value}) → {codec}.Fits value → IsRead {codec}.decode value ({codec}.encode value)'
        if is_form:
            reads = f'(value : {value}) (j : Json) → {codec}.Fits value → {codec}.Writes value j → IsRead {codec}.decode value j'
        cases = '\n'.join(f'    reads {it}' for it in self.readings(declaration, codec))
        yield f'lawful-{word}', f'''pub lawful-{word} : Lawful{"Form" if is_form else ""} {codec}
lawful-{word} = record {{ reads = reads; gives = {gives} each }}
  where
    reads : {reads}
{cases}

    each : (held : Json) → AllByRecursion (λ row. Gives {codec}.Fits row.1) ({word}_rows held)
    each held = {self.each(declaration, codec)}'''

    def simple_enum(self, declaration):
        """Returns the laws of the variants without blocks, for any codec of blocks."""
        word, table, value = snake(declaration.name), self.codecs.table(declaration), self.codecs.value(declaration)
        codec = f'({word}_codec block)'
        cases = '\n'.join(f'  reads-{table} {it}' for it in self.readings(declaration, codec))
        return f'reads-{table}', f'''module _ (block : Codec BlockValue) where
  pub reads-{table} : (value : {value}) → ({table}_payload value).fits → IsRead {codec}.decode value ({table}_payload value).json
{cases}

  pub each-{table} : (held : Json) → AllByRecursion (λ row. Gives {codec}.Fits row.1) ({table}_rows held)
  each-{table} held = {self.each(declaration, codec)}'''


def kind_laws(declarations):
    """Returns the file of the laws of kinds without data."""
    found = kinds(declarations)
    words = [snake(it.name) for it in found]
    imports = Imports(PROOFS, {
        'naga_kinds.specs.derived.Names': ' '.join(f'{it}_name {plural(it)}' for it in words),
        'naga_json.specs.derived.Kinds': ' '.join(f'{it}_codec' for it in words),
    })
    made = Antt(f'{FOLDER}/KindsLemmas.antt', 'Kinds are read as they are written.', imports)
    for word in words:
        made.add(f'''pub lawful-{word} : Lawful {word}_codec
lawful-{word} = lawful-kind {word}_name {plural(word)} (λ kind. grind arith)''', f'lawful-{word}')
    made.add(f'-- the laws of the kinds\npub ruleset kind_laws = ({", ".join(f"lawful-{it}" for it in words)})', 'kind_laws')
    return made


def files(declarations):
    codecs = Codecs(declarations)
    laws = Laws(codecs)
    yield kind_laws(declarations)
    modules = by_module(codecs.made)
    specs = {f'naga_json.specs.derived.{camel(module)}': ' '.join(name for it in found for name, _ in items(codecs, it))
             for module, found in modules.items()}
    proofs = {f'naga_json.proofs.derived.{camel(module)}Lemmas': ' '.join(f'lawful-{snake(it.name)}' for it in found)
              for module, found in modules.items()}
    proofs['naga_json.proofs.derived.KindsLemmas'] = ' '.join(f'lawful-{snake(it.name)}' for it in kinds(declarations))
    for module, found in modules.items():
        about = f'Values whose types are declared in the module `{module}` are read as they are written.'
        file = Antt(f'{FOLDER}/{camel(module)}Lemmas.antt', about, Imports(PROOFS, value_imports(codecs, found), specs, proofs))
        for it in found:
            for name, text in laws.struct(it) if it.is_struct else laws.enum(it):
                file.add(text, name)
        yield file
