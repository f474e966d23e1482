"""The files that are made, each whole: a first line that says so, what it is about, its imports, and its items."""
import re

MADE = 'Made by tests/derive from the declarations of naga_kinds and naga_ir.'
# How wide a line of Rust, and one of antt, may be.
RUST_WIDTH, ANTT_WIDTH = 100, 120
# Operators, as they are used and as they are imported.
OPERATORS = {it: f'◌{it}◌' for it in ('≡', '∷', '++', '×', '∙', '↔', '≤')}
WORD = re.compile(r"[^\W\d][\w'-]*(?:\.[\w'-]+)*|(?<!\.)«\w+»|\+\+|\[\]|[≡∷×∙↔≤⊤⊥]")
RUST_WORD = re.compile(r'(?<!::)\b[A-Za-z_]\w*')


class Imports:
    """The names that a file may import, and from where.

    Each entry is a module and the names that it has, separated by blanks; `as ALIAS` in their place imports the module by that name.
    """

    def __init__(self, *tables):
        self.modules, self.names, self.aliases = [], {}, {}
        for table in tables:
            for module, names in table.items():
                self.add(module, names)

    def add(self, module, names):
        if module not in self.modules:
            self.modules.append(module)
        if names.startswith('as '):
            self.aliases.setdefault(names[len('as '):], module)
        else:
            for name in names.split():
                self.names.setdefault(name, module)

    def used(self, words, own):
        """Returns the modules from which these words are imported, each with its alias or with the words."""
        found = {}
        for word in words:
            name = OPERATORS.get(word, word)
            if name in self.names and name not in own:
                found.setdefault((self.names[name], None), set()).add(name)
            elif name.split('.')[0].split('::')[0] in self.aliases:
                alias = name.split('.')[0].split('::')[0]
                found.setdefault((self.aliases[alias], alias), set())
        return sorted(found.items(), key=lambda it: (self.modules.index(it[0][0]), it[0][1] or ''))


def words_of(text):
    """Returns the words of antt in a text that may be imported, without comments, strings, and fields after a dot."""
    text = re.sub(r'^\s*--.*$|"[^"]*"', '', text, flags=re.M)
    found = []
    for word in WORD.findall(text):
        found += [word, word.split('.')[0]]
    return dict.fromkeys(found)


def ordered(names):
    """Returns names as they stand between the braces of an import."""
    return ', '.join(sorted(names, key=lambda it: (it.strip('«»').lower(), it)))


class Antt:
    """A file of specs/ or proofs/."""

    def __init__(self, path, about, imports):
        self.path, self.about, self.imports, self.items, self.own = path, about, imports, [], set()

    def add(self, text, *names):
        """Adds an item, which defines these names."""
        self.items.append(text)
        self.own |= {*names}

    def text(self):
        body = '\n\n'.join(self.items)
        head = [f'-- {MADE}'] + ([f'-- {self.about}'] if self.about else [])
        for (module, alias), names in self.imports.used(words_of(body), self.own):
            head.append(f'use Rattle.{module} as {alias}' if alias else f'use Rattle.{module}.{{{ordered(names)}}}')
        return '\n'.join(head) + f'\n\n{body}\n'


def clauses_of(text):
    """Returns the parts of a text of Rust that are clauses or ghost items, and the text without them."""
    clauses, rest, at = [], [], 0
    for found in re.finditer(r'\b(?:ensures|requires)(?: \w+)? \{|\bghost \w+ = \{|#\[tactic\(', text):
        if found.start() < at:
            continue
        depth, end = 1, found.end()
        while depth:
            depth += (text[end] in '{(') - (text[end] in '})')
            end += 1
        rest.append(text[at:found.start()])
        clauses.append(text[found.end():end - 1])
        at = end
    return '\n'.join(clauses), ''.join(rest) + text[at:]


class Rust:
    """A file of src/. Names of clauses and names of the code are imported apart. `traits` are those whose methods are called."""

    def __init__(self, path, about, ghosts, imports, head='', traits=()):
        self.path, self.about, self.ghosts, self.imports, self.head, self.traits = path, about, ghosts, imports, head, traits
        self.items = []

    def add(self, text):
        self.items.append(text)

    def text(self):
        body = '\n\n'.join(self.items)
        clauses, code = clauses_of(body)
        code = re.sub(r'^\s*//.*$|"[^"]*"', '', code, flags=re.M)
        head = [f'// {MADE}', f'//! {self.about}']
        for (module, alias), names in self.ghosts.used(words_of(clauses), set()):
            head.append(f'ghost use Rattle.{module} as {alias};' if alias else f'ghost use Rattle.{module}.{{{ordered(names)}}};')
        uses = [use_line(module, names) for (module, _), names in self.imports.used(dict.fromkeys([*self.traits, *RUST_WORD.findall(code)]), set())]
        return '\n'.join(head) + '\n' + ('\n' + '\n'.join(sorted(uses, key=use_order)) + '\n' if uses else '') + f'{self.head}\n{body}\n'


def use_order(line):
    """Returns what `rt fmt` sorts imports by: those of the crate, then others by name."""
    path = line.split(' ')[1]
    return ['super', 'crate'].index(path.split('::')[0]) if path.split('::')[0] in ('super', 'crate') else 2, path


def use_line(module, names):
    """Returns the import of names, broken as `rt fmt` breaks it."""
    listed = sorted(names, key=lambda it: (not it.isupper() if it[0].isupper() else 2, it))
    if len(listed) == 1:
        return f'use {module}::{listed[0]};'
    one = f'use {module}::{{{", ".join(listed)}}};'
    if len(one) < RUST_WIDTH:
        return one
    return f'use {module}::{{\n' + wrapped([it + ',' for it in listed], '    ', RUST_WIDTH - 1) + '};'


def wrapped(words, indent, width, later=None):
    """Returns words on as few lines of a width as they need, each line indented, and those after the first by `later` if it is given."""
    lines, line = [], indent
    for word in words:
        if len(line) + len(word) + bool(line.strip()) > width:
            lines.append(line)
            line = indent if later is None else later
        line += (' ' if line.strip() else '') + word
    return '\n'.join([*lines, line]) + '\n'
