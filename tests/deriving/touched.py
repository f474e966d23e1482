"""The files by hand that a new variant of an enum touches: those of libraries that name its variants, as a table over them does."""
import re

from deriving.declarations import snake

# A file that names fewer of the variants is no table over them, but uses some.
SHARE_OF_A_TABLE = 2 / 5
COMMENT = re.compile(r'^\s*(?://|--).*$', re.M)
COMMAND = 'tests/derive --touch'
# A listing in a document: the command and what it prints.
LISTING = re.compile(rf'^\$ {COMMAND} (\w+)\n((?:.+\n)*?)(?=```|\$ )', re.M)


def library_files(top):
    """Yields the files of libraries that are written by hand."""
    for path in sorted(top.glob('crates/*/*/**/*')):
        crate, folder, *inner = path.relative_to(top / 'crates').parts
        is_made = any(it.startswith('derived') for it in inner)
        if path.suffix in ('.rt', '.antt') and folder in ('src', 'specs', 'proofs') and not crate.endswith('_tests') and not is_made:
            yield path


def listing(top, declarations, type_):
    """Returns a line for each file, which says how many variants it names, or an empty text for a type without variants."""
    names = [it.name for it in declarations[type_].variants] if type_ in declarations else []
    lines = []
    for path in library_files(top) if names else ():
        words = set(re.findall(r'\w+', COMMENT.sub('', path.read_text()).replace('-', '_')))
        named = sum(it in words or snake(it) in words for it in names)
        if named >= len(names) * SHARE_OF_A_TABLE:
            lines.append(f'{"all " if named == len(names) else "some"}  {path.relative_to(top)}\n')
    return ''.join(lines)


def relisted(top, declarations, text):
    """Returns the text of a document with its listings as they are now."""
    return LISTING.sub(lambda it: f'$ {COMMAND} {it[1]}\n{listing(top, declarations, it[1])}', text)
