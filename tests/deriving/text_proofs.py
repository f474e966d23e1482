"""naga_text: the written parts of the proofs about what text.py makes: answers of the functions, and that the texts show themselves."""
from deriving import plain_kinds, text
from deriving.declarations import snake
from deriving.files import ANTT_WIDTH, Antt, Imports
from deriving.naming import antt_pattern, camel

# Where the lemmas are that those about the texts cite.
LEMMAS = {
    'naga_text.specs.Readable': 'IsPlain',
    'naga_text.proofs.ReadableOperandsLemmas': 'literal_text-plain',
    'naga_text.proofs.ReadablePartsLemmas': 'access_text-plain barrier_text-plain loop_words-plain pattern_text-plain',
    'naga_text.proofs.ReadableWordsLemmas': 'flag-plain number-plain optional_name-plain optional_number-plain word-plain',
    'naga_text.proofs.SpellsLemmas': 'Spells-after Spells-append Spells-ascii',
}


def answers(enum):
    """Yields, for each function, the name and the answers."""
    yield enum.function, '\n\n'.join(answers_of_arms(enum))
    for row in enum.rows:
        if enum.has_function(row):
            yield enum.variant_function(row), answer_of(enum, row)


def answers_of_arms(enum):
    seen = set()
    for row in enum.rows:
        callee = enum.called(row).split('(')[0]
        receiver, callee = 'self' if '.' in callee else 'text', callee.removeprefix('text.')
        call = f'c.{callee}-in-{row.variant.name}' if callee in seen else f'c.{callee}'
        seen.add(callee)
        goal = f'returns-in-{row.variant.name}'
        made = f'{call}.result c.args.text.now {call}.new.{receiver} c.args.{enum.word}.now _'
        yield f'pub {goal} : goal.{goal}\n{goal} c = OnOk-variant {enum.definition} {made} c.in-{row.variant.name}.is {call}.ensures'


def answer_of(enum, row):
    """Returns the answer of the function of one variant: what each call appends, one after another."""
    names, receivers, seen = ['push'], ['self'], {'push': 1}
    for it in row.pieces:
        callee = it.callee.removeprefix('text.')
        seen[callee] = seen.get(callee, 0) + 1
        names.append(callee if seen[callee] == 1 else f'{callee}-{seen[callee]}')
        receivers.append('self' if '.' in it.callee else 'text')
    states = ['c.args.text.now', *(f'c.{name}.new.{receiver}' for name, receiver in zip(names, receivers))]
    steps = []
    for at, name in enumerate(names[:-1]):
        piece = '_' if at else f'(codes "{row.word}")'
        steps.append(f'OnOk-after c.{names[-1]}.result {states[at]} {states[at + 1]} {states[-1]} {piece} _ c.in_ok-{name}.ensures')
    last = f'c.{names[-1]}.ensures' + ')' * (len(steps) - 1)
    return 'pub returns : goal.returns\nreturns c =\n    ' + '\n    ('.join(steps) + f'\n    {last}'


def lemma(enum):
    """Returns the lemma that the text shows itself, of which the last row is for the variants without pieces."""
    name = f'{enum.definition}-plain'
    explicit = [it for it in enum.rows if it.pieces or it.is_by_hand] or enum.rows[:1]
    rows = [proved(enum, name, it) for it in explicit]
    if len(explicit) < len(enum.rows):
        rows.append(f'{name} value = Spells-ascii ({enum.definition} value) refl')
    return f'pub {name} : (value : {enum.declaration.name}) → IsPlain ({enum.definition} value)\n' + '\n'.join(rows)


def proved(enum, name, row):
    one = f'{name} {antt_pattern(enum.declaration, row.variant)} = {shown(row)}'
    return one if len(one) <= ANTT_WIDTH else one.replace(' = ', ' =\n    ', 1).replace(' (Spells-append', '\n    (Spells-append')


def shown(row):
    if row.is_by_hand:
        return f'{text.BY_HAND[row.variant.name][2]} {text.BY_HAND[row.variant.name][-1]}'
    if not row.pieces:
        return f'Spells-ascii (codes "{row.word}") refl'
    lemmas = [it.form(it.lemma, it.value) for it in row.pieces]
    whole = lemmas[-1]
    for it in reversed(lemmas[:-1]):
        whole = f'Spells-append ({it}) ({whole})'
    return f'Spells-after (codes "{row.word}") refl ({whole})'


def names_lemmas(declarations):
    """Returns the file that proves that the names of kinds show themselves."""
    imports = Imports({'std.proofs.Common': 'refl'}, LEMMAS)
    about = 'The names of plain kinds contain only characters that show themselves.'
    made = Antt('crates/naga_text/proofs/derived_lemmas/ReadableNamesLemmas.antt', about, imports)
    for kind in plain_kinds.kinds(declarations):
        word = snake(kind.name)
        imports.add('naga_kinds.specs.derived.Names', f'{word}_name')
        imports.add(text.where(kind), kind.name)
        imports.add(f'{text.where(kind)}.TheVariants', f'as {word}')
        rows = [f'{word}_name-plain {word}.{kind.variants[0].name} = Spells-ascii ({word}_name {word}.{kind.variants[0].name}) refl']
        if len(kind.variants) > 1:
            rows.append(f'{word}_name-plain kind = Spells-ascii ({word}_name kind) refl')
        made.add(f'pub {word}_name-plain : (kind : {kind.name}) → IsPlain ({word}_name kind)\n' + '\n'.join(rows))
    return made


def texts_lemmas(declarations, enums):
    """Returns the file that proves that the texts show themselves."""
    names = ' '.join(f'{snake(it.name)}_name-plain' for it in plain_kinds.kinds(declarations))
    own = {'naga_text.proofs.derived_lemmas.ReadableNamesLemmas': names}
    imports = text.specs_imports(declarations, enums, {'std.proofs.Common': 'refl'}, LEMMAS, own)
    about = 'The texts of expressions, statements and their parts contain only characters that show themselves.'
    made = Antt('crates/naga_text/proofs/derived_lemmas/ReadableTextsLemmas.antt', about, imports)
    for it in enums:
        made.add(lemma(it), f'{it.definition}-plain')
    return made


def answer_files(enum):
    """Yields a file for each function that appends a text."""
    module = enum.declaration.module
    for function, answer in answers(enum):
        lemmas = {'std.specs.Prelude': 'codes', 'naga_text.proofs.PiecesLemmas': 'OnOk-after OnOk-variant'}
        imports = Imports(lemmas, text.definition_of(enum))
        imports.add(f'naga_text.proofs.derived.{module}.{function}.Goals', 'as goal')
        made = Antt(f'crates/naga_text/proofs/derived/{module}/{function}/Answers.antt', '', imports)
        made.add(answer)
        yield made


def files(declarations):
    enums = text.all_enums(declarations)
    for it in enums:
        yield from answer_files(it)
    yield names_lemmas(declarations)
    yield texts_lemmas(declarations, enums)
