"""What the scripts of this folder share: the crates of this repository, what each depends on, and what has been built of them."""
import functools
import importlib.machinery
import importlib.util
import os
import pathlib
import re
import subprocess
import sys

TOP = pathlib.Path(__file__).resolve().parent.parent


class Crate:
    """A crate of this repository."""

    def __init__(self, name, words, uses, floor):
        self.name, self.folder = name, TOP / 'crates' / name
        # The names of the crates that it uses, those of the kit among them.
        self.uses = uses
        self.is_static_library = 'staticlib' in words
        self.is_program = (self.folder / 'src' / 'main.rt').is_file()
        # A crate of tests, or one that only tests use.
        self.is_for_tests = floor == 'tests'

    def sources(self):
        """Returns the texts of its source files, by their paths below the crate."""
        return {str(path.relative_to(self.folder)): read(path) for path in sorted(self.folder.glob('src/**/*.rt'))}

    def definitions(self):
        """Returns the texts of its files of definitions, by their paths below the crate."""
        return {str(path.relative_to(self.folder)): read(path) for path in sorted(self.folder.glob('specs/**/*.antt'))}

    def has_tests(self):
        """Returns whether it has a test."""
        return any(re.search(r'^\s*#\[test\]', text, re.M) for text in self.sources().values())

    def stored(self, name):
        """Returns the text of a file beside its sources, or none."""
        path = self.folder / name
        return read(path) if path.is_file() else ''

    def edits(self):
        """Returns the paths of its wrong bodies."""
        return sorted(self.folder.glob('wrong-bodies/*.edit'))

    def below(self):
        """Returns the crates of this repository that it depends on, directly or through others, the lowest first."""
        found = []
        for it in [crates()[name] for name in self.uses if name in crates()]:
            found += [other for other in [*it.below(), it] if other not in found]
        return found

    def why_not_built(self, file):
        """Returns why a file does not count as built from the crate as it is now, or nothing if it does.

        It must be there, and no older than a source of the crate or of one that it depends on.
        """
        if not file.exists():
            return f'{self.name}: there is no {file}'
        for it in [*self.below(), self]:
            for path in it.folder.glob('src/**/*.rt'):
                if path.stat().st_mtime > file.stat().st_mtime:
                    return f'{self.name}: {file} is older than {path}'
        return ''

    def program(self):
        """Returns the path of the program that `rt ci` and `rt run` build."""
        return self.folder / 'out' / self.name

    def tests(self):
        """Returns the path of the program of tests that `rt ci` and `rt test` build."""
        return self.folder / 'out' / f'{self.name}_tests'

    def archive(self):
        """Returns the path of the archive of a static library."""
        return self.folder / 'out' / f'lib{self.name}.a'

    def rlib(self):
        """Returns the path of the library that `rt ci` and `rt check` leave for the crates above."""
        return self.folder / 'out' / 'rlib' / f'{self.name}.rlib'

    def is_left_by_the_gate(self):
        """Returns whether `rt ci` has left the library, and no source was changed since.

        What `rt check` leaves has a file `stamp` beside it.
        """
        return not (self.rlib().parent / 'stamp').exists() and not self.why_not_built(self.rlib())


def read(path):
    """Returns the text of a file."""
    return path.read_text(encoding='utf-8')


@functools.lru_cache(maxsize=None)
def crates():
    """Returns the crates by name, in the order of crates.txt, where those without dependencies come first."""
    found, floor = {}, ''
    for line in read(TOP / 'crates.txt').split('\n'):
        heading = re.match(r'# (\w+): ', line)
        floor = heading[1] if heading else floor
        head, _, uses = line.partition('#')[0].partition(':')
        if head.strip():
            name, *words = head.split()
            found[name] = Crate(name, words, uses.split(), floor)
    return found


def floors():
    """Returns the floors of crates.txt, the lowest first: the heading of each, and the names of its crates."""
    found = []
    for line in read(TOP / 'crates.txt').split('\n'):
        heading = re.match(r'# (\w+: .*)', line)
        if heading:
            found.append((heading[1], []))
        name = re.match(r'\w+', line)
        if name and found:
            found[-1][1].append(name[0])
    return found


def libraries():
    """Returns the libraries for crates above them, the lowest first."""
    return [it for it in crates().values() if not it.is_program and not it.is_static_library and not it.is_for_tests]


@functools.lru_cache(maxsize=None)
def kit():
    """Returns the folder of Rattle's kit."""
    return pathlib.Path(subprocess.run(['rt', 'doc'], stdout=subprocess.PIPE, text=True, check=True).stdout.strip()).parent


def build_archive(name):
    """Builds the archive of a static library, unless it is there and no older than its sources. Exits if it cannot be built.

    `rt ci` proves the crate without building it. If the libraries below it are as `rt ci` leaves them, only the crate itself is proved
    again, in a minute. Otherwise `rt lib` proves what is missing.
    """
    crate = crates()[name]
    if not crate.why_not_built(crate.archive()):
        return
    words = ['rt', 'lib']
    if all(it.is_left_by_the_gate() for it in crate.below()):
        words = [kit() / 'bin' / 'rattle', 'build', '--crate-name', name, '--crate-type', 'staticlib', '--backend', 'llvm']
        words += ['-o', crate.archive(), '--antt-project', kit() / 'rattle' / 'logic' / 'antt-project.json']
        words += ['--logic-built', kit() / 'logic_built', '--toolchain', kit() / 'toolchain']
        words += ['--extern', f'std={kit()}/rlibs/std.rlib', '-L', f'dependency={kit()}/rlibs']
        words += [word for it in crate.below() for word in ('-L', f'dependency={it.rlib().parent}')]
        words += [word for it in crate.uses for word in ('--extern', f'{it}={crates()[it].rlib()}')]
        words += ['src/lib.rt']
    crate.archive().parent.mkdir(exist_ok=True)
    ran = subprocess.run(words, cwd=crate.folder, stdin=subprocess.DEVNULL, stdout=subprocess.PIPE, stderr=subprocess.STDOUT, text=True, errors='replace')
    why = crate.why_not_built(crate.archive())
    if why:
        print('\n'.join(ran.stdout.split('\n')[-20:]))
        sys.exit(why)


def lend_libraries(top):
    """Lets `rt check` in a copy of this repository use the libraries that `rt ci` has left, which it would else prove again.

    Each must be in the folder `out/rlib` of its crate in the copy, with the sources from which it was made.
    """
    loader = importlib.machinery.SourceFileLoader('rtlib', str(kit() / 'bin' / 'rtlib.py'))
    rtlib = importlib.util.module_from_spec(importlib.util.spec_from_loader('rtlib', loader))
    sys.modules['rtlib'] = rtlib
    loader.exec_module(rtlib)
    for it in rtlib.crates_below(str(top)):
        left = pathlib.Path(it.folder) / 'out' / 'rlib'
        if left.is_dir() and not (left / 'stamp').exists():
            (left / 'stamp').write_text(it.stamp(), encoding='utf-8')


def processors():
    """Returns how many processors there are."""
    return len(os.sched_getaffinity(0))
