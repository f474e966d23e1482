"""naga_kinds: the names of the kinds whose variants contain no data, and their order."""
from deriving.declarations import snake
from deriving.files import ANTT_WIDTH, RUST_WIDTH, Antt, Imports, Rust
from deriving.naming import plural


def kinds(declarations):
    """Returns the kinds without data that a module may contain."""
    reached = declarations.reached('Module')
    return [it for it in declarations.values() if it.is_plain and it.crate == 'naga_kinds' and it.name in reached]


def list_of(kind):
    """Returns the constant that lists the variants."""
    name = plural(snake(kind.name)).upper()
    head = f'const {name}: &[{kind.name}] = &['
    listed = [f'{kind.name}::{it.name}' for it in kind.variants]
    one = ', '.join(listed)
    # `rt fmt` keeps a short list on one line.
    if len(one) <= 60 and len(f'{head}{one}];') <= RUST_WIDTH:
        return name, f'{head}{one}];'
    return name, head + '\n' + ''.join(f'    {it},\n' for it in listed) + '];'


def implementation(kind):
    word, (name, constant) = snake(kind.name), list_of(kind)
    rows = ''.join(f'            {kind.name}::{it.name} => "{it.name}",\n' for it in kind.variants)
    return f'''/// The variants of `{kind.name}`, in the order of their declaration.
{constant}

impl PlainKind for {kind.name} {{
    ghost name_of = {{ {word}_name }};

    ghost in_order = {{ {plural(word)} }};

    fn variants<'a>() -> &'a [{kind.name}] {{
        {name}
    }}

    fn name(self) -> &'static str {{
        match self {{
{rows}        }}
    }}
}}'''


def definitions(kind):
    word = snake(kind.name)
    words = plural(word)
    listed = ' ∷ '.join(f'{word}.{it.name}' for it in kind.variants) + ' ∷ []'
    line = f'{words} = {listed}'
    yield words, f'''-- the variants of `{kind.name}`, in the order of their declaration
abbrev pub {words} : List {kind.name}
''' + (line if len(line) <= ANTT_WIDTH else f'{words} =\n' + ''.join(f'    {word}.{it.name} ∷\n' for it in kind.variants) + '    []')
    rows = '\n'.join(f'{word}_name {word}.{it.name} = codes "{it.name}"' for it in kind.variants)
    yield f'{word}_name', f'''-- the name of a variant of `{kind.name}`
abbrev pub {word}_name : {kind.name} → List ℕ
{rows}'''


def files(declarations):
    imports = Imports({'std.specs.Prelude': 'ℕ List [] ◌∷◌ codes'})
    names = Antt('crates/naga_kinds/specs/derived/Names.antt', 'The kinds whose variants contain no data: their variants in order, and their names, which are those in naga.', imports)
    modules = {}
    for kind in kinds(declarations):
        where = f'naga_kinds.specs.declared.{kind.module.replace("/", ".")}.{kind.name}'
        imports.add(where, kind.name)
        imports.add(f'{where}.TheVariants', f'as {snake(kind.name)}')
        for name, text in definitions(kind):
            names.add(text, name)
        modules.setdefault(kind.module, []).append(kind)
    yield names
    for module, found in modules.items():
        ghosts = Imports({'naga_kinds.specs.derived.Names': ' '.join(f'{snake(it.name)}_name {plural(snake(it.name))}' for it in found)})
        code = Imports({f'crate::{module.replace("/", "::")}': ' '.join(it.name for it in found), 'crate::plain_kind': 'PlainKind'})
        made = Rust(f'crates/naga_kinds/src/derived/{module}.rt', 'Names and order of variants.', ghosts, code)
        for kind in found:
            made.add(implementation(kind))
        yield made
