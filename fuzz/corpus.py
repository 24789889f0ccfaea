#!/usr/bin/env python3
"""corpus.py FOLDER   Makes the first inputs of fuzz/subst.c: the sources of the stored answers with their variables,
and texts of each kind.

Some long sources are added. Each input is a file in the folder, without duplicates. The last line is their number.
"""
import hashlib
import pathlib
import sys

sys.dont_write_bytecode = True
sys.path.insert(0, str(pathlib.Path(__file__).resolve().parent.parent))
from tests.vectors import DATA, rows

# The limits of fuzz/subst.c.
MOST_PAIRS, LONGEST_WORD = 24, 255
# Enough pairs and placeholders for an index, and a name that isn't UTF-8.
MORE_WORDS = [word for at, number in enumerate([*range(20), 0]) for word in (b'z%d' % number, b'value %d' % at)]
MORE_WORDS += [b'\xc3', b'value']
MORE_SOURCE = b'$z0${z19}${z5?}' * 6
# Sources so long that they reveal a hidden limit of a call.
LONG = (50000 * b'$z0', b'$' + 100000 * b'n', 100000 * b'\n' + b'$', 50000 * b'${n:', 20000 * b'${a:' + 20000 * b'}')
# Templates, documents and texts of other tools, with each of their faults.
TEXTS = (
    b'', b'Hello $name!', b'${a?}${b:<${name}>}\\$', b'${name:$a}${quote}$a${a:${b?}}$b', b'${name?}${a?x',
    b'$name ${a:$b$name}', b'$name ${a:$name', b'$name\\x',
    b'{ "$name" : "${name}\\u0041","b":[1.50, -0,"\\u0041"],\r\n"c":"$quote"}\n', b'[null , 1E2]', b'"\xc3"',
    b'{"b": ["\\u0041 \\u0024none"], "a": "$x"}', b'"a\\\\x"', b'["$none",\n]',
    b'# $name\r\n"$name" = \'\'\'${name}\'\'\' # $name\r\nb = [ 1_0, "\\u0041" ]\r\nc = "$quote"',
    b'[t]\nb = [\'\', """\n\\u0041 \\u0024none"""]\na = \'$x\'', b"a = 'b\\x'", b"a = '$none'\nb = ]",
    b'# $name\r\n$name: &a ${name} # $quote\r\n"\xc3\xa9": [*a, \'$quote\', "${quote}\\x41"]\r\n',
    b'--- $name\n---\n- |\n  $quote\n', b'a:\n- b: "$none"\n- $x', b'- b\\x', b'a: $name\n\tb: 1', b'- "$none',
    b'a: $name\n  $name\n',
    b'$5 \\n ${name}$b ${1} ${a:b} $', b'$name ${name} $names \\$5', b'\\',
    b'$a:${b}:${c:-<$a>}:${d:?m} $$ \\ {}', b'$a $(b)', b'${a}${1}', b'<${a:+b}', b'${a:-{}}', b'$a${b:-$c',
    b'${name-d}${none-<$name>}${name:+a}${none+b}${name?m}$$ \\', b'${none:?must {be} $set}', b'${name:$name}${none?}$none',
    b'${none-{"k": "${name}"}}', b'${name^} ${name:-$1} ${1}', b'${name:{} ${name:$b')
WORDS = [b'name', b'world', b'quote', b'a"b', b'5', b'']
# Two values for each name. The first value of the first name is empty.
INDEXED = [word for at in range(MOST_PAIRS) for word in (b'%d' % (at // 2), b'vw'[at % 2:at % 2 + 1] if at else b'')]
PLACEHOLDERS = b''.join(b'$%d' % (at // 2) for at in range(MOST_PAIRS))


def records():
    """Yields the source of each row with its names and values, and the long sources."""
    for path in sorted(DATA.glob('*.tsv')):
        for row in rows(path.name):
            yield row.source, [word for pair in row.variables.items() for word in pair]
    for source in LONG:
        yield source, []


def twice(words):
    """Returns names and values, and then the names again with other values: the first ones win."""
    return words + [word if at % 2 == 0 else b'last' for at, word in enumerate(words)]


def written(source, words):
    """Returns an input of fuzz/subst.c, with a buffer of a few bytes, and without words that are too long for it."""
    words = [word[:LONGEST_WORD] for word in words[:2 * MOST_PAIRS]]
    return bytes([8, len(words) // 2, *map(len, words)]) + b''.join(words) + source


def few():
    """Returns the inputs that are tried with each request for memory refused."""
    inputs = [written(text, WORDS) for text in TEXTS] + [written(b'[]', [b'name', b'\xc3'])]
    return inputs + [written(source, INDEXED) for source in (PLACEHOLDERS, PLACEHOLDERS + b'$n')]


def make(folder):
    """Writes all inputs to a folder. Returns their number."""
    inputs = {*few(), *(data for source, words in records() for data in
                        (written(source, twice(words)), written(source + MORE_SOURCE, words + MORE_WORDS)))}
    for data in inputs:
        folder.joinpath(hashlib.sha1(data).hexdigest()).write_bytes(data)
    return len(inputs)


if __name__ == '__main__':
    print(f'{make(pathlib.Path(sys.argv[1]))} inputs')
