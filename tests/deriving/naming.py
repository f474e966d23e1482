"""The names that derived items have, by rule."""
from deriving.declarations import snake

# What a variable of Rust is called whose name is a word of Rust, or, as `result`, one of contracts; and likewise in antt.
RUST_VARIABLES = {'type': 'ty', 'override': 'pipeline_override', 'result': 'outcome'}
ANTT_VARIABLES = {'type': 'ty', 'data': "data'"}


def plural(word):
    """Returns the plural of a word in snake case."""
    if word.endswith('axis'):
        return word[:-len('is')] + 'es'
    return word[:-1] + 'ies' if word.endswith('y') else word + 's'


def camel(word):
    """Returns a word in snake case, in camel case."""
    return ''.join(it.capitalize() for it in word.split('_'))


def article(name):
    """Returns a name of the code with the article that stands before it. A capital that no small letter follows is read as a letter."""
    is_letter = len(name) > 1 and not name[1].islower()
    is_vowel = name[0] in 'AEFHILMNORSX' if is_letter else name[0] in 'AEIO' or name.startswith('Un')
    return f'{"an" if is_vowel else "a"} `{name}`'


def antt_variable(name, alias=None):
    """Returns the variable of antt for a field, which is not the alias under which the variants of its type are imported."""
    return 'value' if name == alias else ANTT_VARIABLES.get(name, name)


def contains_blocks(field):
    """Returns whether a field contains blocks."""
    return field.type in ('Block', 'Vec<SwitchCase>')


def nested(parts, separator, last):
    """Returns parts as a nested tuple: each in a pair with the rest."""
    text = last
    for it in reversed(parts):
        text = f'({it}{separator}{text})'
    return text


def rust_variable(name):
    """Returns the variable of Rust for a field."""
    return RUST_VARIABLES.get(name, name)


def antt_type(name):
    """Returns a type in antt."""
    return '«Type»' if name == 'Type' else name


def antt_pattern(declaration, variant):
    """Returns the pattern of antt that matches a variant, whose constructor is imported under the word of its type.

    A block has its shape before it, and a variant with blocks is built by a function of the name with a quote.
    """
    names, shapes = [], 0
    for it in variant.fields:
        if contains_blocks(it):
            names.append('shape' + "'" * shapes)
            shapes += 1
        names.append(antt_variable(it.name, snake(declaration.name)))
    words = ' '.join([f'{snake(declaration.name)}.{variant.name}' + ("'" if shapes else ''), *names])
    return f'({words})' if names else words
