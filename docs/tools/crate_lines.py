"""What crates.txt and the first lines of the crates say: read by docs/tools/pages and docs/tools/pictures.

The first lines of a crate are the first two sentences of src/lib.rt (of src/main.rt, where there is no lib.rt): what it
does, and what it promises."""
import functools
import glob
import os
import re
import subprocess

TOP = os.path.normpath(os.path.join(os.path.dirname(os.path.abspath(__file__)), '..', '..'))


def text_of(*path):
    with open(os.path.join(TOP, *path), encoding='utf-8') as file:
        return file.read()


def printed(tool, *words):
    """What another tool of docs/tools prints."""
    said = subprocess.run([os.path.join(TOP, 'docs', 'tools', tool), *words], capture_output=True, text=True, check=True)
    return said.stdout.strip()


def groups():
    """The groups of crates.txt: their comment, and their crates, each with the crates that it names."""
    found = []
    for line in text_of('crates.txt').splitlines():
        head, _, names = line.partition(':')
        if line.startswith('# '):
            found.append((line[2:], []))
        elif line:
            found[-1][1].append((head, names.split()))
    return found


def crates():
    return [crate for _, members in groups() for crate in members]


def root_of(crate):
    """The file with a crate's first lines."""
    paths = [os.path.join(TOP, 'crates', crate, 'src', name) for name in ('lib.rt', 'main.rt')]
    return next(path for path in paths if os.path.exists(path))


def own_lines(crate):
    """The first paragraph of a crate."""
    words = []
    for line in text_of(root_of(crate)).splitlines():
        if not re.match(r'//! *\S', line):
            break
        words.append(line[3:].strip())
    return ' '.join(words)


def first_lines(crate):
    """What a crate does, and what it promises."""
    said = re.split(r'(?<=\.) (?=[A-Z`])', own_lines(crate))
    return said[0].rstrip('.'), ' '.join(said[1:2]).rstrip('.')


@functools.cache
def below(crate):
    """The crates that a crate stands on, near and far."""
    named = dict(crates())
    near = [name for name in named[crate] if name in named]
    return set(near).union(*map(below, near))


def is_test(crate):
    return crate.endswith('_tests')


def testers(crate):
    """The crates of tests that name a crate. All name the outside and its double, which host_tests alone tests."""
    return [name for name, names in crates() if is_test(name) and crate in names
            and (name == 'host_tests' or crate not in ('host_calls', 'memory_host'))]


def lines_in(crate, folder, ending):
    paths = glob.glob(os.path.join(TOP, 'crates', crate, folder, '**', '*' + ending), recursive=True)
    return sum(text_of(path).count('\n') for path in paths)
