"""The files that list the modules of each folder `derived`."""
import pathlib
import re

from deriving.files import MADE


class List:
    """A file that lists modules."""

    def __init__(self, path, lines):
        self.path, self.lines = path, lines

    def text(self):
        return '\n'.join(self.lines) + '\n'


def files(made):
    """Yields a list for each folder of src/, specs/ and of lemmas that contains made files."""
    folders, used = {}, set()
    for it in made:
        path = pathlib.PurePosixPath(it.path)
        if path.name in ('Answers.antt', 'Invariants.antt'):
            continue
        # A module with items for the rest of the crate is visible in it.
        is_used = re.search(r'^pub', it.text(), re.M)
        while path.parent.name not in ('src', 'specs', 'proofs'):
            folders.setdefault(path.parent, set()).add(path.stem)
            used |= {path.with_suffix('')} if is_used else set()
            path = path.parent
    for folder, names in sorted(folders.items()):
        is_rust = 'src' in folder.parts
        lines = [f'{"//" if is_rust else "--"} {MADE}']
        if is_rust:
            lines += ['//! What follows from the declarations.']
            lines += [f'{"pub(crate) " if folder / it in used else ""}mod {it};' for it in sorted(names)]
        else:
            lines += [f'pub mod {it}' for it in sorted(names)]
        yield List(f'{folder}.{"rt" if is_rust else "antt"}', lines)
