"""naga_schema: the tables of what the JSON of each type consists of, and the list of the types."""
import re

from deriving import shapes
from deriving.declarations import Unreadable, snake
from deriving.files import Antt, Imports, Rust
from deriving.kind_leaves import constant_name, name_of
from deriving.naming import article, camel, contains_blocks, plural
from deriving.plain_kinds import kinds
from deriving.rust import array, call

CRATE = 'crates/naga_schema'
# The declarations without a table: a block is a list, and no module with a predeclared type has a JSON.
NO_TABLES = {'Block', 'PredeclaredType'}
# Declarations that have another name in the list of types.
NAMES = {'Type': 'NagaType', 'FilterableTriggeringRule': 'TriggeringRule'}
ALIASES = {'NamedExpressions': 'IndexMap<Handle, String>'}
# Types that are not declared and have no name by rule: their names in the list of types, and what they are.
COLLECTIONS = {
    'Block': ('Block', 'A `Block`.'),
    'Range<Expression>': ('Range', 'A range of expressions.'),
    'Vec<Handle>': ('Handles', 'A list of handles.'),
    'Vec<String>': ('Lines', 'The lines of a comment.'),
    '[String; 2]': ('RuleNames', 'The two names of a rule of a user.'),
    '[SwizzleComponent; 4]': ('SwizzlePattern', 'The pattern of a swizzle.'),
    '[u32; 3]': ('WorkgroupSize', 'The number of invocations of a workgroup in each dimension.'),
    '[Option<Handle>; 3]': ('WorkgroupSizeOverrides', 'The expressions that replace the number of invocations.'),
    'Arena<DiagnosticFilterNode>': ('DiagnosticFilters', 'An arena of diagnostic filters.'),
    'IndexMap<Handle, String>': ('NamedExpressions', 'The names of expressions.'),
    'IndexMap<Handle, Vec<String>>': ('HandleComments', 'A map from handles to comments.'),
    'IndexMap<usize, Vec<String>>': ('PositionComments', 'A map from positions to comments.'),
    'IndexMap<PredeclaredType, Handle>': ('EmptyMap', 'An object without members.'),
    'IndexMap<(Handle, usize), Vec<String>>': ('EmptyMap', 'An object without members.'),
}
# The constants in tables/leaves.rt of types that contain no other type.
LEAVES = {
    'Handle': 'HANDLE', 'Option<Handle>': 'OPTIONAL_HANDLE', 'bool': 'BOOLEAN', 'Bytes': 'BYTE', 'u16': 'SHORT', 'u32': 'WORD',
    'u64': 'LONG', 'NonZeroU32': 'NON_ZERO', 'i16': 'INTEGER_16', 'i32': 'INTEGER_32', 'i64': 'INTEGER_64', 'binary32': 'FLOAT_32', 'binary64': 'FLOAT_64',
    'String': 'TEXT', 'Barrier': 'BARRIER', 'StorageAccess': 'STORAGE_ACCESS', 'MemoryDecorations': 'MEMORY_DECORATIONS',
}
# What those are that a list or a map contains.
ELEMENTS = {
    'Handle': 'Natural(0xffff_fffe)', 'Option<Handle>': 'OptionalNatural(0xffff_fffe)', 'u32': 'Natural(0xffff_ffff)', 'String': 'Text',
}


def normal(type_):
    """Returns a type with all handles as one."""
    return re.sub(r'Handle<\w+>', 'Handle', ALIASES.get(type_, type_))


def present(field):
    """Returns the type of what a field contains if it is there."""
    type_ = normal(field.type)
    for outer in ('Option', 'Box'):
        type_ = re.sub(rf'^{outer}<(.*)>$', r'\1', type_)
    return type_


def held_type(variant):
    """Returns the type of what a variant without named fields contains."""
    floats = [it for it in variant.facts if it.startswith('binary')]
    one = floats[0] if floats else present(variant.fields[0])
    return one if len(variant.fields) == 1 else f'[{one}; {len(variant.fields)}]'


def parts(type_):
    """Returns of a type that is not declared what it is, the type of its elements, and its length or the type of its keys."""
    if found := re.fullmatch(r'\[(.*); (\d+)\]', type_):
        return 'array', found[1], found[2]
    if found := re.fullmatch(r'IndexMap<(\w+|\(.*\)), (.*)>', type_):
        return 'map', found[2], found[1]
    if found := re.fullmatch(r'(Vec|Arena|UniqueArena|Range)<(.*)>', type_):
        return {'Vec': 'list', 'Range': 'range'}.get(found[1], 'arena'), found[2], None
    return ('block', 'Statement', None) if type_ == 'Block' else None


def collection(type_):
    """Returns the name of a type that is not declared, and what it is."""
    form, element, length = parts(type_)
    words = plural(snake(element))
    names = {
        'list': (camel(words), f'A list of {words}.'), 'arena': (camel(words), f'An arena of {words}.'),
        'array': (f'{camel(words)}{length}', f'An array of {length} {words}.'),
    }
    found = COLLECTIONS.get(type_) or names.get(form)
    if not found:
        raise Unreadable('tests/deriving/tables.py:1', f'no name for the type {type_!r}')
    return found[0], found[1].replace('_', ' ')


class Types:
    """The types that have a JSON, by their names in the list of types."""

    def __init__(self, declarations):
        self.declarations = declarations
        reached = declarations.reached('Module') - NO_TABLES
        self.tables = [it for it in declarations.values() if it.name in reached and not it.is_plain]

    def collections(self):
        """Returns the types that are not declared, in the order in which they are met."""
        structs = [it for table in self.tables for of in [table, *table.variants] if of is table or of.form == 'struct' for it in of.fields]
        left = [present(it) for it in structs]
        left += [held_type(it) for table in self.tables for it in table.variants if it.form == 'tuple']
        found = {}
        while left:
            type_ = left.pop(0)
            if parts(type_) and type_ not in found:
                found[type_] = collection(type_)[0]
                left += [parts(type_)[1]] * (found[type_] != 'EmptyMap')
        return found

    def name(self, type_):
        """Returns the name of a type in the list, or nothing of one that contains no other type."""
        if parts(type_):
            return collection(type_)[0]
        return NAMES.get(type_, type_) if type_ in self.declarations and not self.declarations[type_].is_plain else None

    def in_table(self, type_):
        """Returns how a table names a type."""
        return f'TypeName::{self.name(type_)}' if self.name(type_) else LEAVES.get(type_) or constant_name(type_)

    def in_rust(self, type_):
        """Returns how the schema of a list or a map names the type of its elements."""
        return f'TypeName::{self.name(type_) or f"Leaf(Leaf::{self.element(type_)})"}'

    def element(self, type_):
        return ELEMENTS.get(type_) or f'Kind(Kind::{name_of(type_)})'

    def in_antt(self, type_):
        """Returns how the shape of a list or a map names the type of its elements."""
        if self.name(type_):
            return f'type.{self.name(type_)}'
        leaf = f'leaves.{self.element(type_)}'.replace('Kind::', 'kind.').replace('(', ' ').replace(')', '')
        return f'(type.Leaf {f"({leaf})" if " " in leaf else leaf})'


def rows(declaration):
    """Returns the variants in the order of their codec's rows, in which those that contain blocks are first."""
    return sorted(declaration.variants, key=lambda it: not any(map(contains_blocks, it.fields)))


def fields_table(types, name, title, fields):
    listed = [(f'"{it.name}"', 'Optional' if it.type.startswith('Option<') else 'Required', types.in_table(present(it))) for it in fields]
    return f'/// The fields of `{title}`.\n' + array(f'pub(crate) static {name}: [Field; {len(listed)}] = ', listed)


def tables(types, declaration):
    """Yields the tables of a declaration."""
    name, table = declaration.name, snake(types.name(declaration.name)).upper()
    if declaration.is_struct:
        yield fields_table(types, table, name, declaration.fields)
        return
    for it in declaration.variants:
        if it.form == 'struct':
            yield fields_table(types, f'{table}_{snake(it.name).upper()}', f'{name}::{it.name}', it.fields)
    names = [f'"{it.name}"' for it in rows(declaration) if it.form == 'unit']
    head = f'pub(crate) static {table}_NAMES: [&str; {len(names)}] = '
    yield f'/// The variants of `{name}` that hold no value.\n' + array(head, names)
    held = [(f'"{it.name}"', f'TypeName::{types.name(name)}{it.name}' if it.form == 'struct' else types.in_table(held_type(it)))
            for it in rows(declaration) if it.form != 'unit']
    head = f'pub(crate) static {table}_VARIANTS: [Variant; {len(held)}] = '
    yield f'/// The variants of `{name}` that hold a value.\n' + array(head, held)


class Row:
    """A type in the list: its name, what it is, its schema in Rust as a call with arguments, and its shape."""

    def __init__(self, name, about, schema, arguments, shape):
        self.name, self.about, self.schema, self.arguments, self.shape = name, about, schema, arguments, shape


def struct_row(name, about, module, table):
    return Row(name, about, 'Schema::Struct', [f'&{module}::{table}'], f'shape.struct (map field_of {table})')


def declared_rows(types, declaration):
    """Yields the types of a declaration: one for each variant with named fields, and its own."""
    name, module = types.name(declaration.name), shapes.module(declaration)
    table, about = snake(name).upper(), article(declaration.name)
    about = f'{about[0].upper()}{about[1:]}.'
    if declaration.is_struct:
        yield struct_row(name, about, module, table)
        return
    for it in declaration.variants:
        if it.form == 'struct':
            what = f'What `{declaration.name}::{it.name}` contains.'
            yield struct_row(f'{name}{it.name}', what, module, f'{table}_{snake(it.name).upper()}')
    shape = f'shape.enum (map name_of {table}_NAMES) (map variant_of {table}_VARIANTS)'
    yield Row(name, about, 'Schema::Enum', [f'&{module}::{table}_NAMES', f'&{module}::{table}_VARIANTS'], shape)


def list_row(types, name, about, length, element):
    shape = f'(lengths.{length.replace("(", " ")}' if '(' in length else f'lengths.{length}'
    return Row(name, about, 'Schema::List', [f'Length::{length}', types.in_rust(element)], f'shape.list {shape} {types.in_antt(element)}')


def collection_row(types, type_):
    """Returns the row of a type that is not declared."""
    (name, about), (form, element, length) = collection(type_), parts(type_)
    if form == 'range':
        return Row(name, about, 'Schema::Range', ['&objects::RANGE'], 'shape.range (map field_of RANGE)')
    if form == 'block':
        return Row(name, about, 'Schema::Block', [types.in_rust(element)], f'shape.block {types.in_antt(element)}')
    if name == 'EmptyMap':
        return struct_row(name, about, 'objects', 'EMPTY_MAP')
    if form == 'map':
        greatest, number = ('0xffff_fffe', '0xffff_fffe') if length == 'Handle' else ('u64::MAX', '0xffff_ffff_ffff_ffff')
        return Row(name, about, 'Schema::Map', [greatest, types.in_rust(element)], f'shape.keyed {number} {types.in_antt(element)}')
    return list_row(types, name, about, {'list': 'Any', 'arena': 'AtMost(0xffff_ffff)'}.get(form, f'Exactly({length})'), element)


def list_of_types(types):
    """Returns the rows of all types."""
    declared = [row for it in types.tables for row in declared_rows(types, it)]
    return declared + [*{row.name: row for row in (collection_row(types, it) for it in types.collections())}.values()]


def type_name(listed):
    """Returns the list of the types and their schemas."""
    variants = ''.join(f'    /// {it.about}\n    {it.name},\n' for it in listed)
    arms = ''.join(call(f'TypeName::{it.name} => {it.schema}', it.arguments, ',', ' ' * 12) + '\n' for it in listed)
    return f'''/// A type whose values have a JSON.
#[derive(Clone, Copy, Debug, PartialEq, Eq)]
pub enum TypeName {{
    /// A value that contains no other value.
    Leaf(Leaf),
{variants}}}

impl TypeName {{
    /// Returns what the JSON of the type consists of.
    #[tactic(auto, unfolding(crate::specs::derived::Types::shape_of))]
    pub fn schema(self) -> Schema
        ensures {{ shape_view result ≡ shape_of self }}
    {{
        match self {{
            TypeName::Leaf(leaf) => Schema::Leaf(leaf),
{arms}        }}
    }}
}}'''


def constants(types):
    """Returns the names of the tables by the modules that have them."""
    found = {'tables.objects': 'EMPTY_MAP RANGE'}
    for it in types.tables:
        names = ' '.join(name for text in tables(types, it) for name in re.findall(r'static (\w+)', text))
        module = f'derived.{shapes.module(it)}'
        found[module] = f'{found.get(module, "")} {names}'
    return found


def table_files(types):
    """Yields the files of the tables."""
    kind_names = ' '.join(constant_name(it.name) for it in kinds(types.declarations))
    sources = {'crate::derived::kind_leaves': kind_names, 'crate::derived::type_name': 'TypeName', 'crate::schema': 'Field Variant',
               'crate::schema::Presence': 'Optional Required', 'crate::tables::leaves': ' '.join(LEAVES.values())}
    made = {}
    for it in types.tables:
        module = shapes.module(it)
        if module not in made:
            made[module] = Rust(f'{CRATE}/src/derived/{module}.rt', shapes.about(module), Imports({}), Imports(sources))
        for text in tables(types, it):
            made[module].add(text)
    yield from made.values()


def files(declarations):
    types = Types(declarations)
    yield from table_files(types)
    listed = list_of_types(types)
    ghosts = Imports({'std.specs.Prelude': '◌≡◌', 'naga_schema.specs.Shape': 'shape_view', 'naga_schema.specs.derived.Types': 'shape_of'})
    sources = {'crate::derived': ' '.join(map(shapes.module, types.tables)), 'crate::derived::kind': 'Kind', 'crate::leaf': 'Leaf',
               'crate::schema': 'Length Schema', 'crate::tables': 'objects'}
    about = 'The types that have a JSON, and what the JSON of each consists of.'
    code = Rust(f'{CRATE}/src/derived/type_name.rt', about, ghosts, Imports(sources))
    code.add(type_name(listed))
    yield code
    specs = Antt(f'{CRATE}/specs/derived/Types.antt', 'What the JSON of each type consists of.', Imports({
        'std.specs.Prelude': 'ℕ List map',
        'naga_schema.specs.declared.derived.kind.Kind.TheVariants': 'as kind',
        'naga_schema.specs.declared.leaf.Leaf.TheVariants': 'as leaves',
        'naga_schema.specs.declared.schema.Length.TheVariants': 'as lengths',
        'naga_schema.specs.declared.derived.type_name.TypeName': 'TypeName',
        'naga_schema.specs.declared.derived.type_name.TypeName.TheVariants': 'as type',
        'naga_schema.specs.Shape': 'Shape',
        'naga_schema.specs.Tables': 'field_of name_of variant_of',
    }, {f'naga_schema.specs.declared.{module}.TheConstants': names for module, names in constants(types).items()}))
    specs.imports.add('naga_schema.specs.Shape', 'as shape')
    lines = ''.join(f'\nshape_of type.{it.name} = {it.shape}' for it in listed)
    specs.add(f'''-- what the JSON of a type consists of
unfoldable pub shape_of : TypeName → Shape
shape_of (type.Leaf one) = shape.leaf one{lines}''', 'shape_of')
    yield specs
