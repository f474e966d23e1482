"""Tables of rows, in tests/rows/tables, and the answers that programs give to them.

A table is a file of lines. Empty lines and lines that begin with # are skipped. A line that contains ' => ' is a row, and the other
lines, its head, come before the rows:

    ask SUBJECT QUESTION   the program naga_rows is asked this about each row, in one run
    run NAME ARGUMENTS..   the program NAME is run with these arguments on each row. It must end with status 0 and print the answer, or
                           else write it to the error output, after its name
    like TABLE             the head of another table comes here
    name NAME NUMBER       $NAME in a row or in the head is the number
    short NAME TEXT        $NAME in a row or in the head is the text. What follows in parentheses, as in $NAME(A,B), are $1, $2 and so on of the text
    FIELD TEXT             adds a text to a field of the module, which is empty else. The fields are those of naga's JSON of a module, and
                           those of the function under test, which comes after the other functions: `arguments`, `result`,
                           `local_variables`, `expressions`, `named_expressions`, `body`. `special_types.FIELD` is a field of that field
    FIELD NAME = TEXT      the same, and $NAME is its index in the list of the field
    text TEXT              the text of a row, if it is not a module
    answer TEXT            the answer of a row, unless it is `ok`. `answer module` is the module that has the row's answer in place of its
                           text
    owner entry_point      the function under test is that of an entry point
    reordered              each row is also read from a text in which the fields of the module are in another order, as a tree. Then the
                           answer `kept: ..` is `changed: ..`

The name of a file that has only a head for others ends in `.head`. In one of these texts, $ is the row's text, or $1, $2 and so on are its parts, between which the row has ' | '. In an answer, $ is the
answer of the row. A row whose text is '' is empty. In a row, \\n, \\r and \\t are characters, and \\\\n is a backslash and an n.
"""
import pathlib
import re
import subprocess
import sys
import tempfile

import repository

TABLES = repository.TOP / 'tests' / 'rows' / 'tables'
LISTS = ('types', 'constants', 'overrides', 'global_variables', 'global_expressions', 'functions', 'entry_points', 'diagnostic_filters')
MODULE = ('types', 'special_types', *LISTS[1:], 'diagnostic_filter_leaf', 'doc_comments')
SPECIAL = ('ray_desc', 'ray_intersection', 'ray_vertex_return', 'external_texture_params', 'external_texture_transfer_function', 'predeclared_types')
FUNCTION = ('arguments', 'result', 'local_variables', 'expressions', 'named_expressions', 'body', 'leaf')
FUNCTION_LISTS = ('arguments', 'local_variables', 'expressions', 'body')
ENTRY_POINT = ('{"name":"main","stage":"Compute","early_depth_test":null,"workgroup_size":[1,1,1],"workgroup_size_overrides":null,"function":',
               ',"mesh_info":null,"task_payload":null,"incoming_ray_payload":null}')
HOLE = re.compile(r'\$(?![A-Za-z_])(\d?)')
SHORT = re.compile(r'\$([A-Za-z_]\w*)(?:\(([^()]*)\))?')


def object_of(members):
    """Returns a JSON object with these members."""
    return '{' + ','.join(f'"{name}":{text}' for name, text in members) + '}'


class Table:
    """A table: what is asked about its rows, and the rows, each with its place, its text and its answer."""

    def __init__(self, path):
        self.path, self.place = path, str(path.relative_to(TABLES)) if path.is_relative_to(TABLES) else str(path)
        self.question, self.run = None, None
        self.names, self.shorts, self.fields, self.rows = {}, {}, {}, []
        self.text, self.answer, self.owner, self.is_reordered = None, '$', 'function', False
        self.read(path)
        if bool(self.question) == bool(self.run):
            sys.exit(f'{self.place}: a table needs one line `ask` or `run`')

    def program(self):
        """Returns the name of the program that gives the answers."""
        return self.run[0] if self.run else 'naga_rows'

    def read(self, path, only_head=False):
        """Reads the lines of a file."""
        for number, line in enumerate(path.read_text(encoding='utf-8').split('\n'), 1):
            if not line.strip() or line.startswith('#'):
                continue
            text, found, answer = line.partition(' => ')
            if not found and line.endswith(' =>'):
                text, found, answer = line[:-3], True, ''
            if found and not only_head:
                self.rows.append((f'{self.place}:{number}', text, answer))
            elif not found:
                self.read_head(*line.partition(' ')[::2], f'{path.name}:{number}')

    def read_head(self, word, rest, place):
        """Reads a line of the head."""
        if word == 'ask':
            self.question = rest
        elif word == 'run':
            self.run = rest.split()
        elif word == 'like':
            self.read(TABLES / rest, only_head=True)
        elif word == 'name':
            name, number = rest.split()
            self.add_name(name, number, place)
        elif word == 'short':
            name, _, self.shorts[name] = rest.partition(' ')
        elif word in ('text', 'answer', 'owner'):
            setattr(self, word, rest)
        elif word == 'reordered':
            self.is_reordered = True
        elif word in MODULE or word in FUNCTION or word.partition('.')[2] in SPECIAL:
            name = re.match(r'(\w+) = ', rest)
            texts = self.fields.setdefault(word, [])
            if name:
                self.add_name(name[1], str(len(texts)), place)
            texts.append(rest[name.end():] if name else rest)
        else:
            sys.exit(f'{place}: unknown line: {word}')

    def add_name(self, name, number, place):
        """Gives a name to a number."""
        if self.names.setdefault(name, number) != number:
            sys.exit(f'{place}: the name {name} has two numbers')

    def value(self, field, is_list, default):
        """Returns the JSON of a field."""
        texts = self.fields.get(field, [])
        return '[' + ','.join(texts) + ']' if is_list else texts[-1] if texts else default

    def function(self):
        """Returns the JSON of the function under test."""
        members = [('name', 'null')]
        for field in FUNCTION:
            default = '{}' if field == 'named_expressions' else 'null'
            name = 'diagnostic_filter_leaf' if field == 'leaf' else field
            members.append((name, self.value(field, field in FUNCTION_LISTS, default)))
        return object_of(members)

    def module(self, is_reordered=False):
        """Returns the JSON of the module, in which $ is the row."""
        members = []
        for field in MODULE:
            text = self.value(field, field in LISTS, 'null')
            if field == 'special_types' and field not in self.fields:
                text = object_of([(name, self.value(f'{field}.{name}', False, '{}' if name == 'predeclared_types' else 'null')) for name in SPECIAL])
            elif field == 'functions' and self.owner == 'function' and self.fields.keys() & {*FUNCTION}:
                text = '[' + ','.join([*self.fields.get(field, []), self.function()]) + ']'
            elif field == 'entry_points' and self.owner == 'entry_point':
                text = '[' + ','.join([*self.fields.get(field, []), self.function().join(ENTRY_POINT)]) + ']'
            members.append((field, text))
        return object_of(members[::-1] if is_reordered else members)

    def filled(self, template, row, place):
        """Returns a text in which the holes have the text of a row, or its parts, and names their numbers."""
        parts = [part.strip() for part in row.split(' | ')]

        def hole(found):
            if found[1]:
                return '' if parts[int(found[1]) - 1] == "''" else parts[int(found[1]) - 1]
            return '' if row == "''" else row

        def number(found):
            if found[1] not in self.names:
                sys.exit(f'{place}: unknown name: {found[1]}')
            return self.names[found[1]]

        text = self.in_full(HOLE.sub(hole, template))
        return re.sub(r'\$([A-Za-z_]\w*)', number, text) if self.names else text

    def in_full(self, text):
        """Returns a text with what its short names stand for."""
        def full(found):
            if found[1] not in self.shorts:
                return found[0]
            arguments = (found[2] or '').split(',')
            return HOLE.sub(lambda it: arguments[int(it[1]) - 1].strip(), self.shorts[found[1]])

        longer = SHORT.sub(full, text) if self.shorts else text
        return longer if longer == text else self.in_full(longer)

    def texts(self):
        """Returns the place, the text and the answer of each row, with the other order if the table has one."""
        found = []
        for is_reordered in [False, True][:1 + self.is_reordered]:
            asked = self.text or self.module(is_reordered)
            for place, row, answer in self.rows:
                template = '$' if answer == 'ok' else self.module() if self.answer == 'module' else self.answer
                wanted = self.filled(template, answer, place)
                wanted = re.sub('^kept: ', 'changed: ', wanted) if is_reordered else wanted
                found.append((place, self.filled(asked, unescaped(row), place), unescaped(wanted)))
        return found


def unescaped(text):
    """Returns a text with the characters that its escapes denote."""
    return re.sub(r'\\(\\(?=[nrt])|[nrt])', lambda it: {'n': '\n', 'r': '\r', 't': '\t', '\\': '\\'}[it[1]], text) if '\\' in text else text


def escaped(text):
    """Returns a text in one line."""
    return text.replace('\n', '\\n').replace('\r', '\\r').replace('\t', '\\t')


class Programs:
    """Programs that are there, by name."""

    def __init__(self, given):
        self.given = given

    def path(self, name):
        """Returns the path of a program. Exits if it is missing or older than its sources."""
        if name not in self.given:
            crate = repository.crates()[name]
            why = crate.why_not_built(crate.program())
            if why:
                sys.exit(why)
            self.given[name] = crate.program()
        return self.given[name]

    def answers(self, table):
        """Returns the answers to the rows of a table."""
        texts = [text for _, text, _ in table.texts()]
        if table.question:
            lines = ''.join(f'{table.question} {text}\n' for text in texts)
            ran = subprocess.run([self.path(table.program())], input=lines.encode(), capture_output=True)
            return lines_of(ran.stdout, ran.returncode)
        return [self.answer(table.program(), table.run[1:], text) for text in texts]

    def answer(self, name, arguments, text):
        """Returns what a program prints, or its errors."""
        ran = subprocess.run([self.path(name), *arguments], input=text.encode(), capture_output=True)
        return answer_of(name, ran.returncode, ran.stdout, ran.stderr)


def lines_of(output, status):
    """Returns the lines of an output, after which there is one more if the program failed."""
    lines = output.decode(errors='replace').split('\n')
    return lines[:-1] + ([f'status {status}'] if status else []) + ([lines[-1]] if lines[-1] else [])


def answer_of(name, status, output, errors):
    """Returns the answer of a run: what it printed, or its errors."""
    said = (errors if status else output).decode(errors='replace')
    return (said[:-1] if said.endswith('\n') else said).removeprefix(f'{name}: ')


class Case:
    """A run of a program: its name, its arguments and its input."""

    def __init__(self, name, arguments, text):
        self.name, self.arguments, self.text = name, arguments, text


def run_cases(crate, cases):
    """Builds a program once, without a proof, and runs it on each case. Returns the status, the output and the errors of each by its
    name, and what `rt try` said. A case that did not end by itself is missing.
    """
    with tempfile.TemporaryDirectory() as folder:
        for case in cases:
            (pathlib.Path(folder) / case.name).write_text(case.text, encoding='utf-8')
            if case.arguments:
                (pathlib.Path(folder) / f'{case.name}.args').write_text('\n'.join(case.arguments) + '\n', encoding='utf-8')
        # The interpreter takes long for a program that is tried on many cases. One step is its least.
        words = ['rt', 'try', '--steps', '1', '--cases', folder]
        ran = subprocess.run(words, cwd=crate.folder, stdin=subprocess.DEVNULL, capture_output=True)
    said = ran.stderr.decode(errors='replace')
    outputs = re.split(r'^== (\S+)\n', ran.stdout.decode(errors='replace'), flags=re.M)
    outputs = dict(zip(outputs[1::2], outputs[2::2]))
    errors = re.split(r'^case=(\S+) run=(.*) proved=no\n', said, flags=re.M)
    found = {}
    for before, name, ended in zip(errors[::3], errors[1::3], errors[2::3]):
        status = re.match(r'ended status=(\d+)', ended)
        if status:
            found[name] = int(status[1]), outputs.get(name, ''), before
    return found, said


def cases_of(table, number):
    """Returns the cases of a table: one with all questions, or one for each row."""
    texts = [text for _, text, _ in table.texts()]
    if table.question:
        return [Case(f'{number:03}', [], ''.join(f'{table.question} {text}\n' for text in texts))]
    return [Case(f'{number:03}-{row:03}', table.run[1:], text) for row, text in enumerate(texts)]


def answers_of_cases(table, cases, found):
    """Returns the answers to the rows of a table, from the runs of its cases."""
    ended = [found[case.name] for case in cases if case.name in found]
    if table.question:
        return [line for status, output, _ in ended for line in lines_of(output.encode(), status)]
    return [answer_of(table.program(), status, output.encode(), errors.encode()) for status, output, errors in ended]


def compare(table, answers):
    """Prints the rows of a table that fail. Returns how many do."""
    texts, failed = table.texts(), 0
    if len(answers) != len(texts):
        print(f'{table.place}: {len(answers)} answers to {len(texts)} rows')
        failed += 1
    for (place, text, wanted), answer in zip(texts, answers):
        if answer != wanted:
            failed += 1
            print(f'{place}: {text if len(text) < 200 else "a row"}\n    expected {escaped(wanted)}\n    found    {escaped(answer)}')
    return failed


def paths_of(words):
    """Returns the paths of the tables with these names, or in these folders."""
    chosen = [TABLES / word for word in words] or [TABLES]
    found = [path for it in chosen for path in (sorted(it.rglob('*')) if it.is_dir() else [it]) if path.is_file()]
    return [path for path in found if not path.name.endswith('.head')]


def try_program(crate, chosen, more=()):
    """Builds a program once, without a proof, and runs it on tables and on more cases.

    Returns how many rows fail, the runs of the cases, and what `rt try` said.
    """
    cases = [cases_of(table, number) for number, table in enumerate(chosen)]
    found, said = run_cases(crate, [*more, *(case for group in cases for case in group)])
    failed = sum(compare(table, answers_of_cases(table, group, found)) for table, group in zip(chosen, cases))
    return failed, found, said
