"""naga_compact: the renaming of the handles that expressions, statements and types contain: its definition, its code, and the lemma that it
renames each reference."""
from deriving.declarations import Unreadable, snake
from deriving.files import ANTT_WIDTH, Antt, Imports, Rust, wrapped
from deriving.naming import antt_pattern, antt_type, antt_variable, article, contains_blocks, plural, rust_variable
from deriving.operands import finders, operands, parts, parts_at_ends
from deriving.rust import pattern

# What is renamed, with all that it contains.
RENAMED = ('Expression', 'Statement', 'Type')
# How wide a line of a table may be.
WIDTH = 120


def renames(declarations, shape):
    """Returns whether renaming changes values of a shape."""
    if shape[0] in ('option', 'list', 'array'):
        return renames(declarations, shape[-1])
    return declarations.refers(shape) and not (shape[0] == 'handle' and 'not renamed' in declarations[shape[1]].facts)


def contained(declarations, name):
    """Returns the names of the declarations that renaming a type changes, each behind those that it contains."""
    found = []
    for field in declarations[name].all_fields():
        shape = declarations.shape(field.type)
        while shape[0] in ('option', 'list', 'array'):
            shape = shape[-1]
        if shape[0] == 'declared' and declarations.refers(shape):
            found += contained(declarations, shape[1])
    return list(dict.fromkeys([*found, name]))


def renamed_names(declarations):
    return list(dict.fromkeys(it for name in RENAMED for it in contained(declarations, name)))


def has_blocks(declaration):
    return any(contains_blocks(it) for it in declaration.all_fields())


# ---- the definition

def renaming_of(shape):
    """Returns the function of antt that renames values of a shape."""
    if shape[0] == 'handle':
        return f'r.{plural(snake(shape[1]))}'
    if shape[0] == 'declared':
        return f'(rename_{snake(shape[1])} r)'
    return f'(option_map {renaming_of(shape[1])})'


def renamed(shape, text):
    """Returns a value of a shape, renamed."""
    if shape[0] == 'range':
        return f'r.ranges {text}'
    if shape[0] == 'list':
        return f'with_items {text} (map {renaming_of(shape[1])} {text}.items)'
    return f'{renaming_of(shape).removeprefix("(").removesuffix(")")} {text}'


def row(declarations, declaration, variant):
    """Returns the row of the definition for a variant."""
    word, made = snake(declaration.name), antt_pattern(declaration, variant)
    arguments = made[1:-1].split(' ')
    for field in variant.fields:
        shape = declarations.shape(field.type)
        name = antt_variable(field.name, word)
        if renames(declarations, shape):
            arguments = [f'({renamed(shape, name)})' if it == name else it for it in arguments]
    head = f'rename_{word} r {made} ='
    one = f'{head} {" ".join(arguments)}'
    return one if len(one) <= ANTT_WIDTH else head + '\n' + wrapped(arguments, ' ' * 4, ANTT_WIDTH).rstrip('\n')


def definition(declarations, name):
    declaration, word, type_ = declarations[name], snake(name), antt_type(name)
    shapes = declarations.parts(declaration.all_fields())
    about = f'-- {article(name)} with its handles renamed'
    about += '; vectors keep their capacity' if any(shape[0] == 'list' and renames(declarations, shape) for _, shape in shapes) else ''
    about += '; the blocks in it stay as they are' if has_blocks(declaration) else ''
    head = f'{about}\nabbrev pub rename_{word} : Renaming → {type_} → {type_}\n'
    variable = antt_variable(word)
    if declaration.is_struct:
        sets = [f'{it.name} = {renamed(shape, f"{variable}.{it.name}")}' for it, shape in shapes if renames(declarations, shape)]
        one = f'rename_{word} r {variable} = record {variable} {{ {"; ".join(sets)} }}'
        return head + (one if len(one) <= ANTT_WIDTH else f'{one.split("{")[0]}{{\n' + ''.join(f'  {it};\n' for it in sets) + '}')
    changed = [it for it in declaration.variants if any(renames(declarations, shape) for _, shape in declarations.parts(it.fields))]
    rows = [row(declarations, declaration, it) for it in changed]
    rows += [f'rename_{word} r {variable} = {variable}'] * (len(changed) < len(declaration.variants))
    return head + '\n'.join(rows)


# ---- the code

def arm(declarations, declaration, variant):
    """Returns the arm for a variant."""
    used = [it for it, shape in declarations.parts(variant.fields) if renames(declarations, shape)]
    calls = [f'{rust_variable(it.name)}.rename(new)' for it in used]
    head = f'{pattern(declaration, variant, used)} =>'
    if len(calls) < 2:
        return [f'{head} {calls[0]},' if calls else f'{head} {{}}']
    one = f'{head} {{ {"; ".join(calls)}; }}'
    if len(one) + 12 <= WIDTH:
        return [one]
    return [f'{head} {{', *wrapped([f'{it};' for it in calls], ' ' * 4, WIDTH - 12).rstrip('\n').split('\n'), '}']


def arms(declarations, declaration, variants, indent):
    return ''.join(f'{indent}{line}\n' for it in variants for line in arm(declarations, declaration, it))


def implementation(declarations, name):
    declaration = declarations[name]
    if declaration.is_struct:
        changed = [it for it, shape in declarations.parts(declaration.fields) if renames(declarations, shape)]
        skip, body = '', ''.join(f'        self.{it.name}.rename(new);\n' for it in changed)
    else:
        skip = '    // One line for each variant.\n    #[rattlefmt::skip]\n'
        body = f'        match self {{\n{arms(declarations, declaration, declaration.variants, " " * 12)}        }}\n'
    return f'''impl Rename for {name} {{
    ghost renamed = {{ rename_{snake(name)} }};

{skip}    fn rename<N: NewHandles>(&mut self, new: &N) {{
{body}    }}
}}'''


def rename_plain(declarations, declaration):
    """Returns the function that renames a statement that contains no block and does not jump; the others belong to the recursion."""
    word = snake(declaration.name)
    plain = [it for it in declaration.variants if 'jump' not in it.facts and not any(contains_blocks(field) for field in it.fields)]
    return f'''/// Replaces the handles that a plain {word} contains, in place.
///
/// Precondition: the {word} is plain.
// One line for each variant.
#[rattlefmt::skip]
pub(crate) fn rename_plain<N: NewHandles>({word}: &mut {declaration.name}, new: &N)
    requires {{ IsTrue (is_plain (node_of {word}.old)) }}
    ensures {{ {word}.new ≡ rename_{word} (N.renaming new.now) {word}.old }}
{{
    match {word} {{
{arms(declarations, declaration, plain, " " * 8)}        _ => unreachable!(),
    }}
}}'''


# ---- the lemma that each reference is renamed

class Lemma:
    """The lemma that what a renamed value of a type refers to is what the value refers to, renamed."""

    def __init__(self, declarations, declaration):
        self.declarations, self.declaration, self.word = declarations, declaration, snake(declaration.name)

    def items(self):
        """Yields the lemmas of the parts, and then that of the type, each with its name."""
        for part in parts(self.declarations, self.declaration):
            last = part in parts_at_ends(self.declarations, self.declaration)
            for name in [f'operands_of_{snake(part)}'] if last else finders(self.declarations, part):
                yield f'{name}-renamed', self.of_part(part, name, 'map' if last else 'option_map')
        name = f'references_of_{self.word}'
        rows = '\n'.join(self.row(f'{name}-renamed r {antt_pattern(self.declaration, it)} =', it) for it in self.declaration.variants)
        yield f'{name}-renamed', f'''pub {name}-renamed : (r : Renaming) ({self.word} : {self.declaration.name})
    → {name} (rename_{self.word} r {self.word}) ≡ map (rename_reference r) ({name} {self.word})
{rows}'''

    def of(self, variant):
        return operands(self.declarations, variant.fields)

    def of_part(self, part, name, over):
        declaration, word = self.declarations[part], snake(part)
        rows = '\n'.join(f'{name}-renamed r {antt_pattern(declaration, it)} = refl' for it in declaration.variants)
        return f'''{name}-renamed : (r : Renaming) ({word} : {part})
    → {name} (rename_{word} r {word}) ≡ {over} r.expressions ({name} {word})
{rows}'''

    def row(self, head, variant):
        made = self.of(variant)
        forms = [it.form for it in made]
        if set(forms) <= {'one'} or forms in (['element'], ['range']):
            return f'{head} refl'
        if set(forms) <= {'one', 'option', 'found'}:
            return f'{head}\n{self.optional(made)}'
        if forms[-1] == 'part':
            return f'{head}\n{self.ending_in_part(made)}'
        if forms[0] == 'element' and forms[1:] in (['list'], ['list', 'option']):
            return f'{head}\n{self.element_and_list(made)}'
        raise Unreadable(variant.where, f'no lemma is known of what {self.declaration.name}::{variant.name} contains')

    def optional(self, made):
        """Returns the proof for a variant of whose expressions some may be absent."""
        listed = ''.join(f'{"Some " if it.form == "one" else ""}{it.antt} ∷ ' for it in made) + '[]'
        if not any(it.form == 'found' for it in made):
            return f'    present-renamed r ({listed})'
        texts = {'one': 'Some (r.expressions {}) ∷ ', 'option': 'option_map r.expressions {} ∷ ', 'found': '{} i ∷ '}
        path = ''.join(texts[it.form].format(it.antt.replace(' ', '-renamed r ')) for it in made)
        return f'    (λ i. present ({path}[]))\n    ∙ present-renamed r ({listed})'

    def ending_in_part(self, made):
        """Returns the proof for a variant at whose end there is a part."""
        *before, part = made
        name = f'operands_of_{snake(part.of)}'
        path = ''.join(f'r.expressions {it.antt} ∷ ' for it in before) + f'{name}-renamed r {part.antt} i'
        listed = ''.join(f'{it.antt} ∷ ' for it in before) + f'{name} {part.antt}'
        return f'    (λ i. operands ({path}))\n    ∙ operands-renamed r ({listed})'

    def element_and_list(self, made):
        """Returns the proof for a variant that refers to an element and to a list of expressions, and maybe to another one."""
        element, list_, *rest = made
        head = f'    ap (λ rest. reference.{antt_type(element.of)} (r.{plural(snake(element.of))} {element.antt}) ∷ rest)'
        of_list = f'(ap operands (items-mapped r.expressions {list_.antt}) ∙ operands-renamed r {list_.antt}.items)'
        if not rest:
            return f'{head}\n    {of_list}'
        last = rest[0].antt
        return f'''{head}
    (appended (rename_reference r) (operands {list_.antt}.items) (option_to_list (option_map reference.Expression {last}))
    {of_list}
    (optional-renamed r reference.Expression r.expressions (λ h. refl) {last}))'''


# ---- the files

def imports_of(declarations):
    """Returns the imports of the definition and the lemma."""
    imports = Imports({'std.specs.Prelude': 'List [] ◌∷◌ Some None map option_map option_to_list', 'std.specs.Vec': 'with_items'})
    for name in renamed_names(declarations):
        declaration, type_ = declarations[name], antt_type(name)
        module = f'naga_ir.specs.declared.{declaration.module.replace("/", ".")}.{type_}'
        imports.add(module, type_)
        if not declaration.is_struct:
            # The variants of a type with blocks are beside it.
            imports.add(module if has_blocks(declaration) else f'{module}.TheVariants', f'as {snake(name)}')
    return imports


def files(declarations):
    names = renamed_names(declarations)
    defined = {'naga_compact.specs.derived.Renaming': ' '.join(f'rename_{snake(it)}' for it in names)}
    about = 'The handles that expressions, statements and types contain, renamed.'
    definitions = Antt('crates/naga_compact/specs/derived/Renaming.antt', about, imports_of(declarations))
    definitions.imports.add('naga_compact.specs.Renaming', 'Renaming')
    about = 'Replacing the handles that expressions, plain statements and types contain.'
    ghosts = {'std.specs.Prelude': '◌≡◌ IsTrue', 'naga_ir.specs.Tree': 'is_plain', 'naga_ir.specs.View': 'node_of'}
    code = Rust('crates/naga_compact/src/derived/renaming.rt', about, Imports(ghosts, defined), Imports({
        'crate::renaming': 'NewHandles Rename', 'naga_ir': ' '.join(names)}))
    for name in names:
        definitions.add(definition(declarations, name), f'rename_{snake(name)}')
        code.add(rename_plain(declarations, declarations[name]) if has_blocks(declarations[name]) else implementation(declarations, name))
    yield from (definitions, code, lemmas(declarations, defined))


def lemmas(declarations, defined):
    imports = imports_of(declarations)
    for module, names in {
            'std.proofs.Common': '◌≡◌ ◌∙◌ ap refl',
            'naga_valid.specs.Reference': 'operands present',
            'naga_valid.specs.declared.reference.Reference.TheVariants': 'as reference',
            'naga_compact.specs.Renaming': 'Renaming rename_reference',
            **defined,
            'naga_compact.proofs.MappedListLemmas': 'items-mapped',
            'naga_compact.proofs.RenamedReferencesLemmas': 'appended operands-renamed optional-renamed present-renamed'}.items():
        imports.add(module, names)
    about = 'The handles of a renamed expression or statement are its handles, renamed.'
    made = Antt('crates/naga_compact/proofs/derived_lemmas/RenamedVariantsLemmas.antt', about, imports)
    for name in ('Expression', 'Statement'):
        found = [f'operands_of_{snake(it)} {" ".join(finders(declarations, it))}' for it in parts(declarations, declarations[name])]
        imports.add(f'naga_valid.specs.{name}s', f'references_of_{snake(name)} {" ".join(found)}')
        for item, text in Lemma(declarations, declarations[name]).items():
            made.add(text, item)
    return made
