"""Helpers for tests of the program `subst`: runs as by a shell, its messages, and files."""
import json
import os
import random
import shutil
import stat

from faults import missing_name, no_such_variable
from tests.support import KIB, Built, path_of, run, shown
from tests.vectors import read_document

PROGRAM = 'subst_cli'
# A user who owns no file.
NOBODY = 65534
NO_NAME = missing_name()
# The message about a variable whose value isn't UTF-8, before its name.
UNREADABLE = "The value of this variable in the environment isn't UTF-8: $"


def subst(words=(), source=b'', **options):
    """Runs the program under its installed name."""
    return run(PROGRAM, words, source, name='subst', **options)


def by_another_user():
    """Returns the options that run a copy of the program as a user who owns no file, or as this user unless it is
    root."""
    os.chmod('.', 0o755)
    os.chmod('..', 0o711)
    copy = os.path.abspath('../subst')
    if not os.path.exists(copy):
        shutil.copy(path_of(PROGRAM), copy)
        os.chmod(copy, 0o755)
    return {'executable': copy, 'preexec_fn': become_nobody}


def become_nobody():
    if os.getuid() == 0:
        os.setgroups([])
        os.setgid(NOBODY)
        os.setuid(NOBODY)


# Messages


def told(place, what, line, carets):
    """Returns the message about a fault, with its line and the carets below."""
    return told_without_line(place, what) + f'  {line}\n  {carets}\n'.encode()


def told_without_line(place, what):
    """Returns the message about a fault of a values file, without the line, which may be a secret."""
    return f'{place}: error: {what}\n'.encode()


def missing(name, place, line, carets, path=''):
    """Returns the message about an unset variable, with the path of its string in a document."""
    return told(place, f'{path}: ' * bool(path) + no_such_variable(name), line, carets)


def wrong_words(text, usage='[OPTIONS]', more=''):
    """Returns the message about wrong arguments."""
    return f"subst: error: {text}\n\n{more}Usage: subst {usage} [FILE]...\n\nFor more information, try '--help'.\n".encode()


def failed(file, number):
    """Returns the message about a file or a device that fails."""
    return failed_since(file, os.strerror(number))


def failed_since(file, why):
    return f'{file}: error: {why}\n'.encode()


def not_replaced(file, number, new):
    """Returns the messages about a new file that can't be made, or can't replace a file."""
    return failed(file, number) + failed_since(file, f"{new} can't replace this file; use '> FILE' to write into it")


# Sources and files


def drawn(size):
    """Returns a source of this size with a variable every few kilobytes, and its output if A is `<value>`."""
    block = bytes(random.choices(b'abcdefghij klmnop\n', k=64 * KIB))
    parts, count = [], 0
    while count < size:
        part = block[:min(random.randint(1, len(block)), size - count)]
        parts.append(part)
        count += len(part)
    return b'${A}'.join(parts), b'<value>'.join(parts)


# The options of each kind of input, and a template for a text in quotes.
FORMS = (([], '{}'), (['--bytes'], '{}'), (['--json'], '["{}"]'), (['--toml'], 'a = "{}"\n'), (['--yaml'], 'a: "{}"\n'))


def in_each_form(text):
    """Returns the options of each kind of input, with a source that has this text."""
    return [(words, form.replace('{}', text).encode()) for words, form in FORMS]


def toml_of(tree):
    """Returns a document whose tables are in braces: the JSON of the tree with `=` in place of `:`."""
    return ''.join(f'{key} = {in_braces(value)}\n' for key, value in tree.items())


def in_braces(value):
    if isinstance(value, dict):
        return '{' + ', '.join(f'{key} = {in_braces(item)}' for key, item in value.items()) + '}'
    return json.dumps(value) if isinstance(value, str) else f'[{", ".join(map(in_braces, value))}]'


def write(file, data, mode=0o644):
    with open(file, 'wb') as opened:
        opened.write(data)
    os.chmod(file, mode)


def read(file):
    with open(file, 'rb') as opened:
        return opened.read()


def mode_of(file):
    return stat.S_IMODE(os.stat(file).st_mode)


class Subst(Built):
    """Tests of the program, which runs with arguments over a source as its standard input."""
    programs = PROGRAM,

    def assert_done(self, words=(), source=b'', output=b'', **options):
        """Fails the test unless a run has this output."""
        self.assert_ends(subst(words, source, **options), 0, output)

    def assert_refused(self, words, source, *messages, **options):
        """Fails the test unless a run refuses a source or a value, with these messages."""
        self.assert_faults(subst(words, source, **options), *messages)

    def assert_faults(self, end, *messages):
        """Fails the test unless an ended run refused a source or a value, with these messages."""
        self.assert_ends(end, 1, errors=b''.join(messages))

    def assert_wrong(self, words, text, usage='[OPTIONS]', more='', source=b'$', **options):
        """Fails the test unless a run reports wrong arguments."""
        self.assert_ends(subst(words, source, **options), 2, errors=wrong_words(text, usage, more))

    def assert_failed(self, words, *messages, **options):
        """Fails the test unless a run reports failing files or devices, with these messages."""
        self.assert_ends(subst(words, **options), 3, errors=b''.join(messages))

    def assert_tree(self, end, kind, wanted):
        """Fails the test unless the output is a document with this tree."""
        try:
            tree = read_document(kind, end.output.decode())
        except ValueError:
            tree = None
        self.assertTrue(end.status == 0 and tree == wanted, f"{end.status}, and {shown(end.output)} isn't as wanted")

    def assert_file(self, file, data):
        """Fails the test unless a file has this data."""
        self.assertTrue(read(file) == data, f'{file} has {shown(read(file))} and not {shown(data)}')

    def assert_mode(self, file, mode):
        """Fails the test unless a file has this mode."""
        self.assertEqual(oct(mode_of(file)), oct(mode), file)

    def assert_files(self, *names, folder='.'):
        """Fails the test unless a folder has these files and no others."""
        self.assertEqual(sorted(os.listdir(folder)), sorted(names), folder)
