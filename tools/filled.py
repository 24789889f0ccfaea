#!/usr/bin/env python3
"""filled.py FILE   Prints a page or the header with its words @NAME@ replaced: by the version, its three numbers, or
texts of faults, in the escapes of pages.
"""
import pathlib
import re
import sys

sys.dont_write_bytecode = True
import faults
from building import version

# The escapes of characters in pages.
ROFF = {'\\': r'\e', "'": r'\(aq', '^': r'\(ha', '-': r'\-'}


def filled(path):
    """Returns the text of a file with its words replaced. Raises KeyError for an unknown word."""
    texts = {'MISSING_NAME': faults.missing_name(), 'MISSING_BRACE': faults.missing_brace(),
             'NO_SUCH_VARIABLE': faults.no_such_variable(''), 'INVALID_ESCAPE': faults.invalid_escape(''),
             'UNEXPECTED_CHARACTER': faults.texts()['UnexpectedCharacter'][0]}
    words = {'VERSION': version(), **dict(zip(('MAJOR', 'MINOR', 'PATCH'), version().split('.')))}
    words.update({word: text.translate(str.maketrans(ROFF)) for word, text in texts.items()})
    text = pathlib.Path(path).read_text(encoding='utf-8')
    return re.sub(r'@([A-Z_]+)@', lambda match: words[match[1]], text)


if __name__ == '__main__':
    sys.stdout.buffer.write(filled(sys.argv[1]).encode())
