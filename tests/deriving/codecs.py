"""naga_json: the codec of each kind, struct and enum, and the tables of its variants.

A value with no spare capacity has a type of its own where a declaration contains lists or texts. These types are written by hand.
"""
from deriving.declarations import Unreadable, snake
from deriving.files import ANTT_WIDTH, Antt, Imports
from deriving.naming import antt_variable, article, camel, contains_blocks, nested, plural
from deriving.plain_kinds import kinds

# The types of values that are written by hand, each with its module.
VALUES = {
    'Expression': ('naga_json.specs.Expression', 'ExpressionValue'),
    'Statement': ('naga_json.specs.StatementValue', 'StatementValue'),
    'TypeInner': ('naga_ir.specs.Types', 'Inner'),
    'StructMember': ('naga_ir.specs.Types', 'Member'),
    'Constant': ('naga_json.specs.Declarations', 'ConstantValue'),
    'Override': ('naga_json.specs.Declarations', 'OverrideValue'),
    'GlobalVariable': ('naga_json.specs.Declarations', 'GlobalVariableValue'),
    'LocalVariable': ('naga_json.specs.Declarations', 'LocalVariableValue'),
    'FunctionArgument': ('naga_json.specs.Declarations', 'FunctionArgumentValue'),
}
# The codecs of what is not declared, and the types of its values.
LEAVES = {
    'bool': ('boolean_codec', 'Bool'), 'Bytes': ('byte_codec', 'ℕ'), 'u16': ('short_codec', 'ℕ'), 'u32': ('word_codec', 'ℕ'),
    'u64': ('long_codec', 'ℕ'), 'NonZeroU32': ('nonzero_codec', 'NonZeroU32'), 'i16': ('(integer_codec 15)', 'ℤ'),
    'i32': ('(integer_codec 31)', 'ℤ'), 'i64': ('(integer_codec 63)', 'ℤ'), 'String': ('text_codec', 'List ℕ'),
    'Barrier': ('barrier_codec', 'Barrier'), 'StorageAccess': ('storage_access_codec', 'StorageAccess'),
    'MemoryDecorations': ('memory_decorations_codec', 'MemoryDecorations'),
}
# Keys of maps, which are not written: no map with such keys has an entry.
UNWRITTEN = {'PredeclaredType'}
FOLDER = 'crates/naga_json/specs/derived'
# What the codecs are made of.
BY_HAND = {
    'std.specs.Prelude': '⊤ ℕ ℤ List [] ◌∷◌ Bool codes Option',
    'std.specs.Float': 'binary32 binary64',
    'std.specs.declared.num.NonZeroU32': 'NonZeroU32',
    'json.specs.Json': 'Json',
    'naga_kinds.specs.declared.flags.Barrier': 'Barrier',
    'naga_kinds.specs.declared.flags.MemoryDecorations': 'MemoryDecorations',
    'naga_kinds.specs.declared.flags.StorageAccess': 'StorageAccess',
    'naga_json.specs.Codec': 'Codec boolean_codec byte_codec handle_codec integer_codec long_codec nonzero_codec short_codec text_codec '
                             'word_codec',
    'naga_json.specs.Fields': 'Fields field no_fields optional_field struct_codec',
    'naga_json.specs.FlagSets': 'barrier_codec memory_decorations_codec storage_access_codec',
    'naga_json.specs.Form': 'Form FormPayload FormVariant data_enum_form enum_form float_form form_row holding_form holds_form written',
    'naga_json.specs.Kinds': 'kind_codec',
    'naga_json.specs.Lists': 'array_codec list_codec',
    'naga_json.specs.Range': 'range_codec',
    'naga_json.specs.Variants': 'Payload Variant data_enum_codec enum_codec holding holds holds_fields row unwritten word',
}


class Codecs:
    """What is written of the declarations, and how."""

    def __init__(self, declarations):
        self.declarations = declarations
        reached = declarations.reached('Module') - UNWRITTEN
        self.made = [it for it in declarations.values() if it.name in reached and not it.is_plain and self.is_made(it)]
        for it in self.made:
            self.check(it)

    def check(self, declaration):
        """Tests that codecs are known of all fields of a declaration that are not in variants with blocks.

        What a variant holds without a name is one value, which is always there.
        """
        simple = self.simple(declaration)
        for field, shape in self.declarations.parts([*declaration.fields, *(field for it in simple for field in it.fields)]):
            if not self.is_known(shape):
                raise Unreadable(field.where, f'no codec is known of `{field.type}`')
        for it in simple:
            if it.form == 'tuple' and [field.type.startswith('Option<') for field in it.fields] != [False]:
                raise Unreadable(it.where, f'no codec is known of what {declaration.name}::{it.name} holds without a name')

    def is_known(self, shape):
        """Returns whether a codec of a shape is known."""
        tag = shape[0]
        if tag in ('option', 'list', 'array'):
            return self.is_known(shape[-1])
        return shape[1] in LEAVES if tag == 'leaf' else tag != 'declared' or self.declarations[shape[1]] in self.made

    def is_made(self, declaration):
        """Returns whether a codec follows from the declaration: its values contain no list and no text, or have a type by hand."""
        return declaration.name in VALUES or all(self.is_made_of(shape) for _, shape in self.declarations.parts(declaration.all_fields()))

    def is_made_of(self, shape):
        """Returns whether a codec of a shape follows."""
        tag = shape[0]
        if tag == 'leaf':
            return shape[1] in LEAVES and shape[1] != 'String'
        if tag in ('option', 'array'):
            return self.is_made_of(shape[-1])
        return tag != 'list' and (tag != 'declared' or self.is_made(self.declarations[shape[1]]))

    def has_form(self, declaration):
        """Returns whether values contain a float, so that there may be several JSONs of a value."""
        return any(self.is_form(it) for it in declaration.variants)

    def is_form(self, variant):
        """Returns whether a variant holds a value of which there may be several JSONs."""
        return bool(self.format(variant)) or any(
            shape[0] == 'declared' and self.has_form(self.declarations[shape[1]]) for _, shape in self.parts(variant))

    def format(self, variant):
        """Returns the format of the float that a variant holds, or none."""
        return next((it for it in sorted(variant.facts) if it.startswith('binary')), None)

    def parts(self, of):
        """Returns the fields of a struct or a variant, each with its shape."""
        return self.declarations.parts(of.fields)

    def definition(self, declaration):
        """Returns the name of the codec or form of a declaration."""
        return snake(declaration.name) + ('_form' if self.has_form(declaration) else '_codec')

    def codec(self, shape, variant=None):
        """Returns the codec or form of a shape, which may be what a variant holds."""
        tag = shape[0]
        if variant and self.format(variant):
            return f'(float_form {self.format(variant)})'
        if tag in ('handle', 'range'):
            return f'{tag}_codec'
        if tag == 'option':
            return self.codec(shape[1])
        if tag == 'list':
            return f'(list_codec {self.codec(shape[1])})'
        if tag == 'array':
            return f'(array_codec {shape[1]} {self.codec(shape[2])})'
        return LEAVES[shape[1]][0] if tag == 'leaf' else self.definition(self.declarations[shape[1]])

    def value(self, declaration):
        """Returns the type of the values of a declaration."""
        return VALUES[declaration.name][1] if declaration.name in VALUES else declaration.name

    def type(self, shape):
        """Returns the type of the values of a shape."""
        tag = shape[0]
        if tag in ('handle', 'range'):
            return 'ℕ' if tag == 'handle' else '(ℕ × ℕ)'
        if tag == 'option':
            return f'Option {self.argument(shape[1])}'
        if tag in ('list', 'array'):
            return f'List {self.argument(shape[-1])}'
        return LEAVES[shape[1]][1] if tag == 'leaf' else self.value(self.declarations[shape[1]])

    def argument(self, shape):
        """Returns the type of the values of a shape, as an argument."""
        text = self.type(shape)
        return f'({text})' if ' ' in text and text[0] != '(' else text

    def simple(self, declaration):
        """Returns the variants that contain no block. The codecs of the others are written by hand."""
        return [it for it in declaration.variants if not any(map(contains_blocks, it.fields))]

    def table(self, declaration):
        """Returns the word of the tables of an enum: only those without blocks are in them."""
        word = snake(declaration.name)
        return word if len(self.simple(declaration)) == len(declaration.variants) else f'simple_{word}'

    def constructors(self, declaration):
        """Returns the names that make a value of an enum whose values have a type by hand."""
        if declaration.name not in VALUES or declaration.is_struct:
            return set()
        named = {fact.split(' ')[1] for it in declaration.variants for fact in it.facts if fact.startswith('value ')}
        return {'plain'} | named | {'jump' for it in declaration.variants if 'jump' in it.facts}

    def made_of(self, declaration, variant, arguments):
        """Returns the value that a variant makes of these arguments."""
        value = next((it.split(' ')[1] for it in variant.facts if it.startswith('value ')), None)
        made = f'{snake(declaration.name)}.{variant.name}'
        if value:
            made = value
        elif 'jump' in variant.facts:
            made = snake(variant.name)
        made = f'{made} {arguments}'.strip()
        if declaration.name not in VALUES or value:
            return made
        return ('jump ' if 'jump' in variant.facts else 'plain ') + (f'({made})' if arguments else made)

    def pattern(self, declaration, variant):
        """Returns the pattern of a variant, and the parts that it binds as they are held."""
        names = [antt_variable(it.name) for it in variant.fields] if variant.form == 'struct' else ['value'] * len(variant.fields)
        made = self.made_of(declaration, variant, ' '.join(names))
        return f'({made})' if ' ' in made else made, names[0] if variant.form == 'tuple' else nested(names, ', ', 'tt')


def projections(count):
    """Returns the parts of a nested tuple."""
    return ['parts' + '.1' * it + '.0' for it in range(count)]


def constructor(declaration, variant):
    """Returns the name of the definition of a variant."""
    return f'{snake(declaration.name)}_{snake(variant.name)}'


def lines(name, listed):
    """Returns a definition that is a list, each of its items on a line."""
    return f'{name} =\n' + ''.join(f'    {it} ∷\n' for it in listed) + '    []'


def broken(head, rest):
    """Returns a definition on one line, or after its head if it is too long."""
    one = f'{head} {rest}'
    return one if len(one) <= ANTT_WIDTH and '\n' not in rest else f'{head}\n    {rest}'


def fields_of(codecs, parts):
    """Returns the fields of an object, each around those after it."""
    listed = [f'{"optional_field" if shape[0] == "option" else "field"} (codes "{it.name}") {codecs.codec(shape)}' for it, shape in parts]
    end = ' no_fields' + ')' * (len(listed) - 1)
    one = ' ('.join(listed) + end
    return one if len(one) <= ANTT_WIDTH - 6 else ' (\n    '.join(listed) + end


def struct(codecs, declaration):
    """Yields the items of a struct."""
    word, value, parts = snake(declaration.name), codecs.value(declaration), codecs.parts(declaration)
    types = nested([codecs.type(shape) for _, shape in parts], ' × ', '⊤')
    made = '; '.join(f'{it.name} = {part}' for (it, _), part in zip(parts, projections(len(parts))))
    held = nested([f'value.{it.name}' for it, _ in parts], ', ', 'tt')
    yield f'{word}_fields', f'''-- the fields of {article(declaration.name)}
abbrev pub {word}_fields : Fields {types}
{broken(f"{word}_fields =", fields_of(codecs, parts))}'''
    yield f'{word}_codec', f'''-- {article(declaration.name)}
abbrev pub {word}_codec : Codec {value}
{word}_codec =
    struct_codec {word}_fields
    (λ parts. record {{ {made} }})
    (λ value. {held})'''


def variant_item(codecs, declaration, variant):
    """Returns the definition of a variant, after its name."""
    name, parts, form = constructor(declaration, variant), codecs.parts(variant), codecs.is_form(variant)
    head = f'-- {article(variant.name)}\nabbrev pub {name} : {"FormVariant" if form else "Variant"} {codecs.value(declaration)}\n'
    if variant.form == 'tuple':
        make = codecs.made_of(declaration, variant, 'value')
        make = f'(λ value. {make})' if declaration.name in VALUES else make[:-len(' value')]
        holds = 'holds_form' if form else 'holds'
        return name, head + broken(f'{name} =', f'{holds} (codes "{variant.name}") {codecs.codec(parts[0][1], variant)} {make}')
    return name, head + f'''{name} =
    holds_fields (codes "{variant.name}")
    ({fields_of(codecs, parts)})
    (λ parts. {codecs.made_of(declaration, variant, " ".join(projections(len(parts))))})'''


def payload(codecs, declaration):
    """Yields how the values of an enum are written."""
    word, table, value = snake(declaration.name), codecs.table(declaration), codecs.value(declaration)
    rows, forms = [], []
    for it in codecs.simple(declaration):
        shown, held = codecs.pattern(declaration, it)
        if codecs.is_form(it):
            forms.append(f'{word}_forms {shown} = holding_form {constructor(declaration, it)} {held}')
        elif it.form == 'unit':
            rows.append(f'{table}_payload {shown} = word (codes "{it.name}")')
        else:
            rows.append(broken(f'{table}_payload {shown} =', f'holding {constructor(declaration, it)} {held}'))
    # What is left is the value of no variant here, or is not written in one way.
    if declaration.name in VALUES or forms:
        rows.append(f'{table}_payload other = unwritten')
    which = ' that is written in one way' if forms else ''
    yield f'{table}_payload', f'''-- how {article(declaration.name)}{which} is written
abbrev pub {table}_payload : {value} → Payload
''' + '\n'.join(rows)
    if forms:
        yield f'{word}_forms', f'''-- how {article(declaration.name)} may be written
abbrev pub {word}_forms : {value} → FormPayload
''' + '\n'.join([*forms, f'{word}_forms other = written ({word}_payload other)'])


def enum(codecs, declaration):
    """Yields the items of an enum."""
    word, table, value = snake(declaration.name), codecs.table(declaration), codecs.value(declaration)
    simple = codecs.simple(declaration)
    units, held = [it for it in simple if it.form == 'unit'], [it for it in simple if it.form != 'unit']
    yield from (variant_item(codecs, declaration, it) for it in held)
    if units:
        listed = [f'(codes "{it.name}", {codecs.made_of(declaration, it, "")})' for it in units]
        yield f'{word}_names', f'''-- the variants of `{declaration.name}` that are names alone
abbrev pub {word}_names : List (List ℕ × {value})
{lines(f"{word}_names", listed)}'''
    rows = [f'{"form_row" if codecs.is_form(it) else "row"} {constructor(declaration, it)} held' for it in held]
    without = ' and no block' if table != word else ''
    yield f'{table}_rows', f'''-- the variants of `{declaration.name}` that contain data{without}
abbrev pub {table}_rows : Json → List (List ℕ × Option {value})
{lines(f"{table}_rows held", rows)}'''
    yield from payload(codecs, declaration)
    if table == word:
        kind = 'form' if codecs.has_form(declaration) else 'codec'
        tables = f'enum_{kind} {word}_names {word}_rows' if units else f'data_enum_{kind} {word}_rows'
        yield f'{word}_{kind}', f'''-- {article(declaration.name)}
abbrev pub {word}_{kind} : {kind.capitalize()} {value}
{word}_{kind} = {tables} {word}_{"forms" if kind == "form" else "payload"}'''


def items(codecs, declaration):
    """Returns the items of a declaration, each with its name."""
    return [*(struct(codecs, declaration) if declaration.is_struct else enum(codecs, declaration))]


def by_module(declarations):
    """Returns declarations by the modules that declare them."""
    found = {}
    for it in declarations:
        found.setdefault(it.module, []).append(it)
    return found


def value_imports(codecs, own):
    """Returns the modules of the types of values, and those of the variants of some declarations."""
    found = {}
    for it in [*kinds(codecs.declarations), *codecs.made]:
        declared = f'{it.crate}.specs.declared.{it.module.replace("/", ".")}.{it.name}'
        module, value = VALUES.get(it.name, (declared, it.name))
        names = [value, *(codecs.constructors(it) if it in own else [])]
        found[module] = ' '.join([*found.get(module, '').split(), *names])
        jumps = [snake(variant.name) for variant in it.variants if 'jump' in variant.facts]
        if jumps:
            found['naga_ir.specs.Tree'] = ' '.join(jumps)
        if it in own and it.variants:
            found[f'{declared}.TheVariants'] = f'as {snake(it.name)}'
    return found


def kind_file(declarations):
    """Returns the file of the codecs of kinds without data."""
    found = kinds(declarations)
    types = {f'naga_kinds.specs.declared.{it.module.replace("/", ".")}.{it.name}': it.name for it in found}
    names = {'naga_kinds.specs.derived.Names': ' '.join(f'{snake(it.name)}_name {plural(snake(it.name))}' for it in found)}
    about = 'Kinds without data, which are written as the names of their variants.'
    made = Antt(f'{FOLDER}/Kinds.antt', about, Imports(BY_HAND, types, names))
    for it in found:
        word = snake(it.name)
        made.add(f'''-- {article(it.name)}
abbrev pub {word}_codec : Codec {it.name}
{word}_codec = kind_codec {word}_name {plural(word)}''', f'{word}_codec')
    return made


def modules_of(codecs):
    """Returns what each file of codecs defines, by its module."""
    found = {}
    for module, made in by_module(codecs.made).items():
        found[f'naga_json.specs.derived.{camel(module)}'] = ' '.join(name for it in made for name, _ in items(codecs, it))
    return found | {'naga_json.specs.derived.Kinds': ' '.join(f'{snake(it.name)}_codec' for it in kinds(codecs.declarations))}


def files(declarations):
    codecs = Codecs(declarations)
    yield kind_file(declarations)
    for module, found in by_module(codecs.made).items():
        about = f'How values are written and read whose types are declared in the module `{found[0].module}`.'
        file = Antt(f'{FOLDER}/{camel(module)}.antt', about, Imports(BY_HAND, value_imports(codecs, found), modules_of(codecs)))
        for it in found:
            for name, text in items(codecs, it):
                file.add(text, name)
        yield file
