"""Installations of tools/install below a prefix, and the answers of the library and its package for Python in columns
of the rows of crates/subst_vectors/data. Sources and variables are bytes or texts.
"""
import ctypes
import enum
import functools
import importlib
import os
import pathlib
import re
import shutil
import sys
import sysconfig
import tempfile

import faults
from tests.support import SCRATCH, TOP, Case, ran
from tests.vectors import character_column, encode

CC = os.environ.get('CC') or 'cc'
# Results of subst.h.
DONE, REFUSED, ROOM_TOO_SMALL = 0, 1, 5
# Kinds of faults and of variables of subst.h.
Kind = enum.IntEnum('Kind', 'INVALID_ESCAPE_SEQUENCE MISSING_VARIABLE_NAME UNEXPECTED_CHARACTER MISSING_CLOSING_BRACE '
                            'NO_SUCH_VARIABLE')
VARIABLES = 'required', 'optional', 'default'


@functools.lru_cache(None)
def prefix(*options):
    """Installs with these options of tools/install, or else the library and its package, below a new prefix. Returns
    the prefix. Proves first what has changed."""
    folder = pathlib.Path(tempfile.mkdtemp(dir=SCRATCH.name)).resolve()
    for option in options or ('--library', '--python'):
        ran([TOP / 'tools/install', *option.split(), folder], timeout=None)
    return folder


def packages(below):
    """Returns the folder below a prefix that has the package for Python."""
    return next(below.glob('lib/python3*/*-packages'))


def has_fast():
    """Returns whether the package is installed with its module in C."""
    return shutil.which(CC) is not None and os.path.exists(f'{sysconfig.get_paths()["include"]}/Python.h')


@functools.lru_cache(None)
def module():
    """Imports the installed package, over the library of its prefix."""
    os.environ.pop('SUBST_LIBRARY', None)
    sys.path.insert(0, str(packages(prefix())))
    return importlib.import_module('subst')


def sized(items):
    """Returns bytes, or an array, with its length."""
    return items, ctypes.c_size_t(len(items))


class Place(ctypes.Structure):
    """subst_fault or subst_variable of subst.h."""
    _fields_ = [('kind', ctypes.c_uint32), ('position', ctypes.c_size_t), ('length', ctypes.c_size_t)]

    def all(self):
        return self.kind, self.position, self.length


class Cell(ctypes.Structure):
    """subst_cell of subst.h."""
    _fields_ = [(name, ctypes.c_uint32) for name in ('kind', 'first', 'second', 'number')]


class Value(ctypes.Structure):
    """subst_value of subst.h. If it has no bytes, it is unset."""
    _fields_ = [('bytes', ctypes.c_char_p), ('length', ctypes.c_size_t), ('given', ctypes.c_uint32)]


class Pair(ctypes.Structure):
    """subst_pair of subst.h."""
    _fields_ = [('name', ctypes.c_char_p), ('name_len', ctypes.c_size_t),
                ('value', ctypes.c_char_p), ('value_len', ctypes.c_size_t)]


def pairs_of(variables):
    return (Pair * len(variables))(*(Pair(name, len(name), it, len(it)) for name, it in variables.items()))


class Style(ctypes.Structure):
    """subst_style of subst.h."""
    _fields_ = [('forms', ctypes.c_uint32), ('names', ctypes.c_uint32), ('unset', ctypes.c_uint32),
                ('only', ctypes.POINTER(Pair)), ('only_len', ctypes.c_size_t)]


class StyleFault(ctypes.Structure):
    """subst_style_fault of subst.h."""
    _fields_ = [('kind', ctypes.c_uint32), ('form', ctypes.c_uint32),
                *((name, ctypes.c_size_t) for name in ('position', 'length', 'message_position', 'message_length'))]


class Kept:
    """The calls for templates that C keeps, with names of the package for Python. Sources and variables are bytes."""

    class SubstError(Exception):
        """A fault, from its record and the source alone."""

    def __init__(self):
        self.library = ctypes.CDLL(str(prefix() / 'lib/libsubst.so.0'))
        self.library.subst_template_variables.restype = ctypes.c_size_t

    def items(self, call, item, *arguments, last=()):
        """Makes a call without a buffer, and with one that is as long as needed. Returns the result and the buffer."""
        buffer, needed = (item * 0)(), ctypes.c_size_t()
        for _ in range(2):
            result = self.library[call](*arguments, *sized(buffer), ctypes.byref(needed), *map(ctypes.byref, last))
            if result == ROOM_TOO_SMALL:
                buffer = (item * needed.value)()
        return result, buffer

    def done(self, call, item, source, *arguments):
        """Returns the buffer of a call, which is done or refuses the source."""
        fault = Place()
        result, buffer = self.items(call, item, *arguments, last=[fault])
        assert result in (DONE, REFUSED), f'{call} of {source} returns {result}'
        if result == REFUSED:
            raise self.error(source, fault)
        return buffer

    def error(self, source, fault):
        """Returns the exception for a fault."""
        error, words = self.SubstError(), (ctypes.c_size_t * 2)()
        error.kind, error.position, error.length = Kind(fault.kind), fault.position, fault.length
        error.message, error.highlighting = (
            self.items(f'subst_error_{name}', ctypes.c_char, *sized(source), ctypes.byref(fault))[1].raw.decode()
            for name in ('text', 'highlighting'))
        is_placed = self.library.subst_place(*sized(source), ctypes.c_size_t(fault.position), ctypes.byref(words),
                                             ctypes.byref(words, ctypes.sizeof(ctypes.c_size_t))) == DONE
        error.line = words[0] if is_placed else None
        return error

    def parsed(self, source):
        """Returns the cells of a source, and the first use of each variable."""
        cells = self.done('subst_parse', Cell, source, *sized(source), 0)
        uses = (Place * self.library.subst_template_variables(*sized(cells)))()
        for number, use in enumerate(uses):
            result = self.library.subst_template_variable(*sized(cells), *sized(source), ctypes.c_size_t(number),
                                                          ctypes.byref(use))
            assert result == DONE, f'variable {number} of {source} returns {result}'
        return cells, uses

    def fill_in(self, source, variables):
        """Returns the output of a source."""
        cells, uses = self.parsed(source)
        found = [variables.get(source[it.position:it.position + it.length]) for it in uses]
        values = (Value * len(found))(*(Value(it, len(it or b''), it is not None) for it in found))
        return self.done('subst_expand', ctypes.c_char, source, *sized(cells), *sized(source), *sized(values)).raw

    def fill_in_by_style(self, text, variables, style):
        """Returns the output of a text of another tool, or the record of its fault, from the text's template."""
        fault, of_text = Place(), StyleFault()
        result, template = self.items('subst_template_by_style', ctypes.c_char, *sized(text), ctypes.byref(style),
                                      last=[of_text])
        if result == REFUSED:
            return of_text
        source = template.raw
        cells, uses = self.parsed(source)
        values = (Value * len(uses))()
        for number, use in enumerate(uses):
            variable = (*sized(cells), *sized(source), style.forms, ctypes.c_size_t(number))
            self.library.subst_template_variable_by_style(*variable, ctypes.byref(use))
            found = variables.get(source[use.position:use.position + use.length])
            values[number] = Value(found, len(found or b''), found is not None)
            result = self.library.subst_value_by_style(*variable, ctypes.byref(values[number]))
            assert result == DONE, f'value {number} of {text} returns {result}'
        result, output = self.items('subst_expand', ctypes.c_char, *sized(cells), *sized(source), *sized(values),
                                    last=[fault])
        if result == DONE:
            return output.raw
        result = self.library.subst_fault_by_style(*sized(text), ctypes.byref(style), *sized(source),
                                                   ctypes.byref(fault), ctypes.byref(of_text))
        assert result == DONE, f'the fault of {text} returns {result}'
        return of_text


@functools.lru_cache(None)
def kept():
    """Returns the calls for templates that C keeps."""
    return Kept()


def first_uses(source):
    """Returns the column of the variables of a source, each at its first use, or the columns of its fault."""
    try:
        uses = kept().parsed(source)[1]
    except Kept.SubstError as error:
        return fault(source, error)
    names = [source[it.position:it.position + it.length].decode() for it in uses]
    return [','.join(f'{VARIABLES[it.kind]}@{it.position}={name}' for it, name in zip(uses, names)) or '-']


def firsts(column):
    """Returns the column of variables without the later uses of each name."""
    found = {}
    for entry in column.split(','):
        found.setdefault(entry.partition('=')[2], entry)
    return ','.join(found.values())


class Compiling(Case):
    """Tests that compile C."""

    def need_to_compile(self, compiler, *options, source='int main(void) { return 0; }'):
        """Skips the test unless a compiler makes a program with these options, and the program runs here."""
        pathlib.Path('probe.c').write_text(f'{source}\n', encoding='utf-8')
        self.need_to_run(compiler, *options, 'probe.c', '-o', 'probe')
        self.need_to_run('./probe', '-runs=1')


def to_bytes(text):
    return text.encode() if isinstance(text, str) else text


def answer(subst, source, variables):
    """Returns the columns of the answer to a source."""
    try:
        return ['ok', encode(to_bytes(subst.fill_in(source, variables)))]
    except subst.SubstError as error:
        return fault(source, error)


def lists(subst, source, variables):
    """Returns the columns of the lists of a source, or those of its fault."""
    try:
        all_, missing = subst.variables(source), subst.missing(source, variables)
    except subst.SubstError as error:
        return fault(source, error)
    kinds = [it.kind.name.lower().replace('with_', '') for it in all_]
    return [','.join(f'{kind}@{entry}' for kind, entry in zip(kinds, entries(source, all_))) or '-',
            ','.join(entries(source, missing)) or '-']


def entries(source, variables):
    return [f'{len(to_bytes(source[:it.position]))}={to_bytes(it.name).decode()}' for it in variables]


def fault(source, error):
    """Returns the columns of a fault."""
    start, end_ = (len(to_bytes(source[:at])) for at in (error.position, error.position + error.length))
    case, at_fault, text = error.kind.name.title().replace('_', ''), to_bytes(source)[start:end_], error.message
    expected = text.rpartition(faults.texts()['UnexpectedCharacter'][1])[2] if case == 'UnexpectedCharacter' else ''
    detail = {
        'InvalidEscapeSequence': lambda: character_column(at_fault[1:]) if at_fault[1:] else 'none',
        'MissingVariableName': lambda: str(error.length),
        'UnexpectedCharacter': lambda: character_column(at_fault),
        'MissingClosingBrace': lambda: '-',
        'NoSuchVariable': lambda: encode(at_fault),
    }[case]()
    line = highlighting = '.'
    if error.line is not None:
        lines = re.split(b'\r\n|\r|\n', to_bytes(source))
        line, highlighting = map(of_text, (lines[error.line - 1], error.highlighting.encode()))
    texts = [encode(it.encode()) for it in (expected, text)]
    return ['fault', case, str(start), detail, *texts, f'{start}..{end_}', line, highlighting]


def of_text(data):
    """Returns the column of a line or highlighting, in which a dot alone would mean that there is none."""
    return '%2E' if data == b'.' else encode(data)
