"""faults.py --header   Prints the texts of faults that fuzz/subst.c includes.

The texts of faults in crates/subst_error/src/display.rt, by which tests name a fault's kind. `texts()` returns the
pieces of each by the name of its error; the other functions return whole texts.
"""
import functools
import json
import os
import re
import sys

sys.dont_write_bytecode = True
from building import CRATES


@functools.lru_cache(None)
def texts():
    """Returns the pieces of text that each error of display.rt writes, in order."""
    source = (CRATES / 'subst_error/src/display.rt').read_text(encoding='utf-8')
    blocks = re.findall(r'^impl fmt::Display for (\w+)(?:<\'_>)? \{\n(.*?)^\}', source, re.MULTILINE | re.DOTALL)
    return {kind: [piece.replace('\\\\', '\\') for piece in re.findall(r'write_str\(\s*"((?:[^"\\]|\\.)*)"', body)]
            for kind, body in blocks}


def expected_after_name():
    """Returns the words for what may follow a name in braces."""
    source = (CRATES / 'subst_parse/src/halt.rt').read_text(encoding='utf-8')
    return re.search(r'"(a closing brace[^"]*colon[^"]*)"', source)[1]


def missing_name():
    return texts()['MissingVariableName'][0]


def missing_brace():
    return texts()['MissingClosingBrace'][0]


def no_such_variable(name):
    return texts()['NoSuchVariableRef'][0] + name


def invalid_escape(character=None):
    """Returns the text for a backslash before this character, as it is shown, or at the end of the source."""
    with_character, at_end = texts()['InvalidEscapeSequence']
    return at_end if character is None else with_character + character


def unexpected(quoted, expected=None):
    """Returns the text for an unexpected character in its quoted form. By default it follows a name in braces."""
    before, between = texts()['UnexpectedCharacter']
    return before + quoted + between + (expected_after_name() if expected is None else expected)


def header():
    """Returns a table in C of the beginning of each text, by the kinds of subst.h."""
    beginnings = {
        'INVALID_ESCAPE_SEQUENCE': os.path.commonprefix([invalid_escape(), invalid_escape('')]),
        'MISSING_VARIABLE_NAME': missing_name(),
        'UNEXPECTED_CHARACTER': texts()['UnexpectedCharacter'][0] + "'",
        'MISSING_CLOSING_BRACE': missing_brace(),
        'NO_SUCH_VARIABLE': no_such_variable(''),
    }
    lines = [f'    [SUBST_{kind}] = {json.dumps(text)},' for kind, text in beginnings.items()]
    return '\n'.join(['static const char *const TEXTS[] = {', *lines, '};'])


if __name__ == '__main__':
    print(header())
