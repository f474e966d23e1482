"""naga_schema: the kinds whose variants contain no data, as types that contain no other type."""
from deriving.declarations import snake
from deriving.files import Antt, Imports, Rust
from deriving.naming import plural
from deriving.plain_kinds import kinds
from deriving.rust import call

CRATE = 'crates/naga_schema'
# Kinds that have another name in naga_schema.
NAMES = {'StandardFilterableTriggeringRule': 'StandardRule'}


def name_of(kind):
    return NAMES.get(kind, kind)


def constant_name(kind):
    """Returns the name of the constant that stands for a kind in a table."""
    return snake(name_of(kind)).upper()


def names(made):
    """Returns the definitions of naga_kinds that are about the kinds."""
    return {'naga_kinds.specs.derived.Names': ' '.join(f'{snake(it.name)}_name {plural(snake(it.name))}' for it in made)}


def kind(made):
    """Returns the list of the kinds."""
    variants = ''.join(f'    /// `{it.name}`.\n    {name_of(it.name)},\n' for it in made)
    arms = ''.join(f'            Kind::{name_of(it.name)} => {it.name}::from_name(name).is_some(),\n' for it in made)
    name_arms = ''.join(f'            Kind::{name_of(it.name)} => name_at::<{it.name}>(position),\n' for it in made)
    return f'''/// A kind whose variants contain no data, which is written as the name of its variant.
#[derive(Clone, Copy, Debug, PartialEq, Eq)]
pub enum Kind {{
{variants}}}

impl Kind {{
    /// Returns `true` if a variant of the kind has this name.
    #[tactic(auto, unfolding(crate::specs::derived::Kinds::kind_has))]
    pub fn has(self, name: &str) -> bool
        ensures {{ result ≡ kind_has self name.now }}
    {{
        match self {{
{arms}        }}
    }}

    /// Returns the name of the variant at a position, in the order of declaration, or `None` if there are fewer.
    #[tactic(auto, unfolding(crate::specs::derived::Kinds::kind_names))]
    pub fn name(self, position: usize) -> Option<&'static str>
        ensures {{ option_map (λ name. name.now) result ≡ slice_get (kind_names self) position }}
    {{
        match self {{
{name_arms}        }}
    }}
}}'''


def kind_file(made):
    ghosts = Imports({'std.specs.Prelude': '◌≡◌ option_map slice_get', 'naga_schema.specs.derived.Kinds': 'kind_has kind_names'})
    code = Rust(f'{CRATE}/src/derived/kind.rt', 'The kinds whose variants contain no data.', ghosts,
                Imports({'crate::look': 'name_at', 'naga_kinds': ' '.join(it.name for it in made) + ' PlainKind'}), traits=['PlainKind'])
    code.add(kind(made))
    return code


def constants_file(made):
    sources = {'crate::derived::kind': 'Kind', 'crate::derived::type_name': 'TypeName', 'crate::leaf': 'Leaf'}
    about = 'The kinds whose variants contain no data, as the tables name them.'
    code = Rust(f'{CRATE}/src/derived/kind_leaves.rt', about, Imports({}), Imports(sources))
    for it in made:
        head = f'pub(crate) const {constant_name(it.name)}: TypeName = TypeName::Leaf(Leaf::Kind'
        code.add(call(head, [f'Kind::{name_of(it.name)}'], ');', ''))
    return code


def specs_file(made):
    imports = Imports({
        'std.specs.Prelude': 'ℕ List Bool is_some map',
        'naga_kinds.specs.Names': 'named',
        'naga_schema.specs.declared.derived.kind.Kind': 'Kind',
        'naga_schema.specs.declared.derived.kind.Kind.TheVariants': 'as kind',
    }, names(made))
    specs = Antt(f'{CRATE}/specs/derived/Kinds.antt', 'The kinds whose variants contain no data.', imports)
    lines = ''
    for it in made:
        word = snake(it.name)
        lines += f'\nkind_has kind.{name_of(it.name)} name = is_some (named {word}_name {plural(word)} name)'
    specs.add(f'''-- whether a variant of the kind has this name
unfoldable pub kind_has : Kind → List ℕ → Bool{lines}''', 'kind_has')
    names_lines = ''.join(f'\nkind_names kind.{name_of(it.name)} = map {snake(it.name)}_name {plural(snake(it.name))}' for it in made)
    specs.add(f'''-- the names of the variants of the kind, in the order of declaration
unfoldable pub kind_names : Kind → List (List ℕ){names_lines}''', 'kind_names')
    return specs


def lemmas_file(made):
    imports = Imports({
        'std.proofs.Common': 'refl ℕ',
        'naga_json.specs.derived.Kinds': ' '.join(f'{snake(it.name)}_codec' for it in made),
        'naga_schema.specs.derived.Kinds': 'kind_has',
        'naga_schema.specs.declared.derived.kind.Kind.TheVariants': 'as kind',
        'naga_schema.specs.declared.derived.type_name.TypeName.TheVariants': 'as type',
        'naga_schema.specs.declared.leaf.Leaf.TheVariants': 'as leaves',
        'naga_schema.proofs.AgreesLemmas': 'Agrees agrees-kind',
    }, names(made))
    about = 'The schemas of kinds accept the JSONs that their codecs read.'
    lemmas = Antt(f'{CRATE}/proofs/derived_lemmas/KindLeavesAgree.antt', about, imports)
    for it in made:
        word, name = snake(it.name), name_of(it.name)
        lemmas.add(f'''pub agrees-{word} : (depth : ℕ) → Agrees depth (type.Leaf (leaves.Kind kind.{name})) {word}_codec.decode
unfolding kind_has
agrees-{word} depth = agrees-kind depth kind.{name} {word}_name {plural(word)} (λ name. refl)''', f'agrees-{word}')
    return lemmas


def files(declarations):
    made = kinds(declarations)
    yield from (kind_file(made), constants_file(made), specs_file(made), lemmas_file(made))
