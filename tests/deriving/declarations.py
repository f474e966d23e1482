"""The declarations of naga_kinds and naga_ir, which are all that the derived files are made from.

A declaration is a `pub enum` or a `pub struct`. What its types do not say is a fact, a comment `// derive: FACT` above the declaration or
above a variant. These facts are known:

    binary32, binary64    on a variant: its number is the bits of a float
    value NAME            on a variant with a list: the constructor of specs/ for its value without the spare capacity of the list
    jump                  on a variant: the statement jumps
    no flags              on a variant: its text does not list the optional operands that are present
    not renamed           on a struct: compaction keeps the handles of such values
"""
import re
from dataclasses import dataclass, field

CRATES = ('naga_kinds', 'naga_ir')
FACTS = re.compile(r'binary32|binary64|value \w+|jump|no flags|not renamed')
# The types that are neither declared nor generic.
LEAVES = {'bool', 'u16', 'u32', 'u64', 'i16', 'i32', 'i64', 'Bytes', 'NonZeroU32', 'String', 'Block'}


class Unreadable(Exception):
    """What cannot be read, or what nothing can be made of, as `PATH:LINE: WHY`."""

    def __init__(self, where, why):
        super().__init__(f'{where}: {why}')


@dataclass
class Field:
    # The name in Rust. A field without a name has one from its type.
    name: str
    type: str
    # Where it is declared, as `PATH:LINE`.
    where: str
    is_named: bool = True


@dataclass
class Variant:
    name: str
    # `unit`, `tuple` or `struct`.
    form: str
    fields: list
    # Where it is declared, as `PATH:LINE`.
    where: str
    facts: set = field(default_factory=set)


@dataclass
class Declaration:
    name: str
    crate: str
    # The module that declares it, as `scalar` or `types/inner`.
    module: str
    # Of an enum. A struct has none.
    variants: list = field(default_factory=list)
    # Of a struct. An enum has none.
    fields: list = field(default_factory=list)
    facts: set = field(default_factory=set)
    # Whether it derives `Copy`.
    is_copy: bool = False

    @property
    def is_struct(self):
        return not self.variants

    @property
    def is_plain(self):
        """Returns whether this is an enum whose variants contain no data."""
        return not self.is_struct and all(it.form == 'unit' for it in self.variants)

    def all_fields(self):
        """Returns the fields of a struct, or those of all variants of an enum."""
        return self.fields + [it for variant in self.variants for it in variant.fields]


def snake(name):
    """Returns a name in snake case."""
    name = re.sub(r'(?<=[a-z0-9])(?=[A-Z])', '_', name)
    return re.sub(r'(?<=[A-Z])(?=[A-Z][a-z])', '_', name).lower()


def positional(type_):
    """Returns the name of a field that has none: of a handle, the name of what it refers to, else that of its type, or `value`."""
    if handle := re.fullmatch(r'Handle<(\w+)>', type_):
        return snake(handle[1])
    if type_.startswith('Range<'):
        return 'range'
    return snake(type_) if re.fullmatch(r'[A-Z]\w*', type_) and type_ not in LEAVES else 'value'


class Reader:
    """Reads the declarations of one source file."""

    def __init__(self, path, text, crate, module):
        self.path, self.text, self.crate, self.module = path, text, crate, module

    def where(self, at):
        line = self.text.count('\n', 0, at) + 1
        return f'{self.path}:{line}'

    def fail(self, at, why):
        raise Unreadable(self.where(at), why)

    def facts_above(self, at):
        """Returns the facts in the comments and attributes that end where a declaration or a variant begins."""
        lines, found = self.text[:at].split('\n')[:-1], set()
        while lines and re.match(r'\s*(//|#\[|$)', lines[-1]) and lines[-1].strip():
            line = lines.pop().strip()
            if fact := re.match(r'// ?derive:\s*(.*)', line):
                if not FACTS.fullmatch(fact[1]):
                    raise Unreadable(f'{self.path}:{len(lines) + 1}', f'unknown fact {fact[1]!r}')
                found.add(fact[1])
        return found

    def is_copy(self, at):
        """Returns whether the attributes that end where a declaration begins derive `Copy`."""
        above = re.search(r'(?:^[ \t]*(?://|#\[).*\n)*\Z', self.text[:at], re.M)[0]
        return re.search(r'#\[derive\([^)]*\bCopy\b', above) is not None

    def parts(self, start, end):
        """Returns where the parts of a text between commas begin and end, without comments and attributes before them."""
        depth, at, begin, found = 0, start, None, []
        while at < end:
            skipped = re.compile(r'//[^\n]*\n|#\[[^\n]*\]\n|\s+').match(self.text, at, end) if depth == 0 and begin is None else None
            if skipped:
                at = skipped.end()
                continue
            if self.text.startswith('//', at):
                at = self.text.index('\n', at)
                continue
            char = self.text[at]
            begin = at if begin is None else begin
            depth += (char in '<([{') - (char in '>)]}')
            if char == ',' and depth == 0:
                found.append((begin, at))
                begin = None
            at += 1
        return found + ([(begin, end)] if begin is not None and self.text[begin:end].strip() else [])

    def named_fields(self, start, end):
        fields = []
        for begin, after in self.parts(start, end):
            found = re.match(r'(?:pub(?:\(\w+\))? )?(\w+):\s*(.+)', self.text[begin:after], re.S)
            if not found:
                self.fail(begin, f'not a field: {self.text[begin:after].strip()!r}')
            fields.append(Field(found[1], re.sub(r'\s+', ' ', found[2].strip()), self.where(begin)))
        return fields

    def variant(self, begin, after):
        text = self.text[begin:after].rstrip()
        found = re.match(r'(\w+)\s*([{(])?', text)
        if not found:
            self.fail(begin, f'not a variant: {text!r}')
        facts = self.facts_above(self.text.rfind('\n', 0, begin) + 1)
        if not found[2]:
            if not re.fullmatch(r'\w+(\s*=\s*\d+)?', text):
                self.fail(begin, f'not a variant: {text!r}')
            return Variant(found[1], 'unit', [], self.where(begin), facts)
        if text[-1] not in '})':
            self.fail(begin, f'not a variant: {text!r}')
        inner = begin + found.end(), begin + len(text) - 1
        if found[2] == '{':
            return Variant(found[1], 'struct', self.named_fields(*inner), self.where(begin), facts)
        types = [re.sub(r'\s+', ' ', self.text[a:b].strip()) for a, b in self.parts(*inner)]
        fields = [Field(positional(it), it, self.where(begin), False) for it in types]
        return Variant(found[1], 'tuple', fields, self.where(begin), facts)

    def declarations(self):
        for found in re.finditer(r'^pub (enum|struct) (\w+)(<[^{;]*>)?\s*([{(;])', self.text, re.M):
            made = Declaration(
                found[2], self.crate, self.module, facts=self.facts_above(found.start()), is_copy=self.is_copy(found.start()))
            if found[3] or found[4] != '{' or self.text[found.end()] == '}':
                if made.facts:
                    self.fail(found.start(), f'{found[2]} has a fact, and its fields cannot be read')
                continue
            end = self.text.find('\n}', found.end())
            if end < 0:
                self.fail(found.start(), f'{found[2]} has no end')
            if found[1] == 'struct':
                made.fields = self.named_fields(found.end(), end)
            else:
                made.variants = [self.variant(*it) for it in self.parts(found.end(), end)]
            yield made


class Declarations(dict):
    """The declarations by their names, in the order of crates, files and lines."""

    def __init__(self, top):
        super().__init__()
        for crate in CRATES:
            sources = top / 'crates' / crate / 'src'
            for path in sorted(sources.rglob('*.rt')):
                module = str(path.relative_to(sources))[:-len('.rt')]
                if module.split('/')[0] != 'derived':
                    text = path.read_text()
                    for it in Reader(path.relative_to(top), text, crate, module).declarations():
                        self[it.name] = it

    def shape(self, type_):
        """Returns what a type consists of.

        That is ('handle', NAME), ('range', NAME), ('option', SHAPE), ('list', SHAPE), ('array', LENGTH, SHAPE), ('kind', NAME) of an
        enum whose variants contain no data, ('declared', NAME) of another declaration, or ('leaf', NAME).
        """
        for form, tag in ((r'Handle<(\w+)>', 'handle'), (r'Range<(\w+)>', 'range')):
            if found := re.fullmatch(form, type_):
                return tag, found[1]
        for form, tag in ((r'Option<(.*)>', 'option'), (r'Vec<(.*)>', 'list')):
            if found := re.fullmatch(form, type_):
                return tag, self.shape(found[1])
        if found := re.fullmatch(r'\[(.*); (\d+)\]', type_):
            return 'array', int(found[2]), self.shape(found[1])
        if type_ in self:
            return 'kind' if self[type_].is_plain else 'declared', type_
        return 'leaf', type_

    def refers(self, shape):
        """Returns whether values of a shape contain handles."""
        tag = shape[0]
        if tag in ('handle', 'range'):
            return True
        if tag in ('option', 'list', 'array'):
            return self.refers(shape[-1])
        return tag == 'declared' and any(self.refers(self.shape(it.type)) for it in self[shape[1]].all_fields())

    def parts(self, fields):
        """Returns fields, each with its shape."""
        return [(it, self.shape(it.type)) for it in fields]

    def reached(self, name):
        """Returns the names of the declarations that values of a type may contain, its own among them."""
        found, left = set(), [name]
        while left:
            name = left.pop()
            if name not in found:
                found.add(name)
                left += [word for it in self[name].all_fields() for word in re.findall(r'\w+', it.type) if word in self]
        return found
