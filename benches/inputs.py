#!/usr/bin/env python3
"""inputs.py [FOLDER]   Makes the inputs of the benches, each a source and its variables.

Compares each with its sum in inputs.tsv, which also has the Rust crate's instructions for it. With a folder, writes
NAME.src and NAME.vars, lines NAME=VALUE, of each into it. README.md describes the inputs.
"""
import functools
import hashlib
import itertools
import json
import random
import string
import sys
from pathlib import Path
from typing import NamedTuple

TABLE = Path(__file__).resolve().parent / "inputs.tsv"
MIB = 1 << 20
SMALL, CAPITALS, VALUES = string.ascii_lowercase, string.ascii_uppercase + "_", string.ascii_lowercase + "0123456789/.-"
ESCAPES = [r"\$", r"\\", r"\{", r"\}", r"\:", "a", "bc", " "]
DEPTHS = (1_000, 10_000, 100_000, 1_000_000)
GAPS = (16, 40, 60, 70, 100, 130, 200, 400, 1000, 4000)

# The names of the usual variables, and another name.
NAMES = ["HOST", "PORT", "USER_NAME", "DB", "REGION", "TOKEN", *(f"VAR_{number:02}" for number in range(20))]
MISSING = "MISSING_X"

CONFIGURATION = """\
# service configuration
listen = "${HOST}:$PORT"
user = "$USER_NAME"
[database]
url = "postgres://${USER_NAME}@${DB:localhost}/main"
region = "$REGION"
token = "${TOKEN}"
retries = 5
timeout = 30
"""


class Input(NamedTuple):
    """A source, and its variables in order."""

    source: bytes
    variables: dict

    def lines(self):
        """Returns the variables, in lines NAME=VALUE."""
        return "".join(f"{name}={value}\n" for name, value in self.variables.items()).encode()

    def sum(self):
        """Returns a sum over these bytes."""
        return hashlib.sha256(self.source + b"\0" + self.lines()).hexdigest()[:16]


# Parts of inputs.


def drawn(rng, alphabet, length):
    """Returns this many random letters of an alphabet."""
    return "".join(rng.choice(alphabet) for _ in range(length))


def reaching(length, piece, size=len):
    """Returns joined pieces, up to the one that reaches this length."""
    taken = []
    while length > 0:
        taken.append(piece())
        length -= size(taken[-1])
    return "".join(taken)


def either_form(rng):
    """Returns the form of a placeholder, with braces or without, at random."""
    return "${%s}" if rng.random() < 0.5 else "$%s"


def in_default_of(name, text):
    return f"${{{name}:{text}}}"


def nested_defaults(depth):
    """Returns this many nested defaults of one variable."""
    return "${a:" * depth + "x" + "}" * depth


def words_in_lines(rng, words):
    """Yields words without end, with a line end after the word that reaches column 72."""
    column = 0
    while True:
        word = rng.choice(words)
        column += len(word) + 1
        yield word + (" " if column < 72 else "\n")
        column = column if column < 72 else 0


def prose(rng, words, length):
    return reaching(length, words_in_lines(rng, words).__next__)[:length]


def prose_around(rng, words, placeholder):
    """Returns 1 MiB of prose, with a placeholder after each 34 to 49 bytes."""
    return reaching(MIB, lambda: prose(rng, words, rng.randrange(34, 50)) + placeholder() + " ")


def filler(rng, length):
    """Returns words of 2 to 8 letters, separated by blanks."""
    return reaching(length, lambda: drawn(rng, SMALL, rng.randrange(2, 9)) + " ")[:length]


def some_names(rng, count, shortest=7, longest=14):
    """Returns this many different names, sorted."""
    names = set()
    while len(names) < count:
        names.add("N" + drawn(rng, CAPITALS, rng.randrange(shortest - 1, longest)))
    return sorted(names)


def pieces_around(rng, names, placeholder, length=MIB, size=50):
    """Returns pieces of this size up to this length, each of a placeholder of one of these names and filler."""

    def piece():
        begin = placeholder(rng.choice(names)) + " "
        return begin + filler(rng, max(1, size - len(begin)))

    return reaching(length, piece)


def wide_characters(rng, first, count):
    """Returns 1 MiB of blanks and of this many characters from the first on, with a usual variable after each 40."""

    def piece():
        wide = (chr(first + rng.randrange(count)) if rng.random() < 0.85 else " " for _ in range(40))
        return "".join(wide) + "${%s} " % rng.choice(NAMES)

    return reaching(MIB, piece, lambda piece: len(piece.encode()))


# All inputs: names, sources, and variables other than the usual ones. Each draws random numbers after those before it.


def fixed():
    yield "s0", ""
    yield "s10plain", "plain text"
    yield "s5esc", r"\$5.00"
    yield "s7", "${HOST}"
    yield "s10", "host=$HOST"
    yield "s20", "http://${HOST}:$PORT"
    yield "s50", "postgres://${USER_NAME}@${DB:localhost}:$PORT/main"
    yield "sfault", "Hi ${nobody}, bye"
    yield "sbad", "costs $ 5"
    yield "configuration", CONFIGURATION
    yield "nested", 200 * ("".join(f"${{N{level}:x" for level in range(50)) + "core" + "}" * 50 + "\n")
    yield "deepjump", in_default_of("HOST", nested_defaults(100_000))
    for depth in DEPTHS:
        yield f"depth{depth}", nested_defaults(depth)
    for gap in GAPS:
        yield f"gap{gap}", ("$A " + "x" * (gap - 3)) * (60_000 // gap), {"A": "x"}


def of_prose(rng):
    words = [drawn(rng, SMALL, rng.randrange(2, 11)) for _ in range(2000)]
    filled = prose_around(rng, words, lambda: either_form(rng) % rng.choice(NAMES))
    yield "variables", filled
    yield "default_variables", in_default_of(MISSING, filled)
    # This input is dropped, but those below were drawn after it.
    prose_around(rng, words, lambda: "${%s}" % rng.choice(NAMES))
    plain = prose(rng, words, MIB)
    yield "plain", 16 * plain
    yield "default_plain", in_default_of(MISSING, plain)
    yield "escapes", drawn(rng, ESCAPES, MIB // 2)


def of_names(rng):
    for count in (1, 10, 1_000, 100_000):
        names = some_names(rng, count)
        variables = {name: drawn(rng, SMALL, rng.randrange(4, 20)) for name in names}
        yield f"names{count}", pieces_around(rng, names, lambda name: either_form(rng) % name), variables
    for length in (100, 1_000):
        names = some_names(rng, 20, length + 1, length + 20)
        variables = {name: drawn(rng, SMALL, 10) for name in names}
        source = pieces_around(rng, names, lambda name: either_form(rng) % name, size=2 * length)
        yield f"longname{length}", source, variables
    names = some_names(rng, 1_000)

    def with_default(name):
        return in_default_of(name, drawn(rng, SMALL, 8))

    yield "missing", pieces_around(rng, names, with_default)
    yield "optional", pieces_around(rng, names, lambda name: f"${{{name}?}}")
    yield "jump", in_default_of("HOST", pieces_around(rng, names, with_default, MIB - 20))


def drawn_last(rng):
    yield "big1", "a $BIG b", {"BIG": filler(rng, MIB)}
    yield "big16", 8 * "a $BIG b ${BIG}", {"BIG": filler(rng, MIB)}
    names = [f"F{number:02}" for number in range(30)]
    defaults = names[::3]
    text = "".join(filler(rng, 128) + ("${%s:friend}" if name in defaults else "${%s}") % name for name in names)
    variables = {name: drawn(rng, SMALL, 12) for name in names if name not in defaults}
    yield "letter4k", (text + filler(rng, 4096))[:4096], variables
    yield "s50plain", filler(rng, 50)
    yield "cyrillic", wide_characters(rng, 0x430, 32)
    yield "chinese", wide_characters(rng, 0x4E00, 2_000)


@functools.lru_cache(None)
def every():
    """Returns the inputs by their names."""
    rng, later = random.Random(20261122), random.Random(11)
    usual = {name: drawn(rng, VALUES, rng.randrange(4, 24)) for name in NAMES}
    made = itertools.chain(fixed(), of_prose(rng), of_names(later), drawn_last(later))
    return {name: Input(source.encode(), *(variables or [usual])) for name, source, *variables in made}


def repeated(name, length):
    """Returns an input with the source of another, repeated up to this length, without a last backslash that has
    nothing to escape there."""
    made = every()[name]
    source = (made.source * (length // len(made.source) + 1))[:length]
    backslashes = length - len(source.rstrip(b"\\"))
    return made._replace(source=source[: length - backslashes % 2])


@functools.lru_cache(None)
def figures():
    """Returns the sum of each input, and the Rust crate's instructions for it by the work, with the limit: those of a
    search for each special byte and one copy of the output."""
    found = {}
    for line in TABLE.read_text(encoding="utf-8").splitlines():
        if not line.startswith("#"):
            name, its_sum, *counts = line.split("\t")
            known = zip(("parse", "expand", "both", "limit"), counts)
            found[name] = its_sum, {work: int(count) for work, count in known if count != "-"}
    return found


# Sources that are made to be slow: each a function of its size, with the filter's exit status.

HOSTILE = {
    "nested defaults": (nested_defaults, 0),
    "nested defaults, one brace fewer": (lambda size: nested_defaults(size)[:-1], 1),
    "nested defaults, a bad escape inside": (lambda size: "${a:" * size + r"\x" + "}" * size, 1),
    "bare braces in a default": (lambda size: "${a:" + "{" * size + "}" * (size + 1), 0),
    "bare braces, one closing fewer": (lambda size: "${a:" + "{" * size + "}" * size, 1),
    "bad escapes in open defaults": (lambda size: r"${a:\x" * size, 1),
    "escaped braces in a default": (lambda size: "${a:" + r"\}" * size + "}", 0),
    "optional variables": (lambda size: "${a?}" * size, 0),
}


# Documents for which the Rust crate's instructions are known.


def toml_text(objects):
    """Returns an array of tables. Keys are letters, and no string needs TOML's escapes, so JSON's quoting will do."""
    return "\n".join("[[table]]\n" + "".join(f"{key} = {json.dumps(value)}\n" for key, value in members.items())
                     for members in objects)


# The text of a list of objects, its length in bytes, and the instructions.
DOCUMENTS = {"json": (json.dumps, 5_800_000, 257_000_000), "toml": (toml_text, 3_700_000, 172_800_000)}


def some_value(rng, names):
    """Returns a number, a word, or words with a variable in them."""
    which = rng.random()
    if which < 0.3:
        return rng.randrange(100_000)
    words = " ".join("".join(rng.choices("etaoinshrdlu", k=rng.randrange(3, 9))) for _ in range(rng.randrange(1, 4)))
    return words if which < 0.6 else f"{words}/${{{rng.choice(names)}}}"


def document(kind, length=None):
    """Returns a document of objects with ten members each, of its length in bytes, or of this length."""
    rng, (text_of, size, _) = random.Random(7), DOCUMENTS[kind]
    size = length or size
    names = [f"NAME_{number}" for number in range(300)]
    variables = {name: "".join(rng.choices("abcdefghij/.-", k=rng.randrange(4, 24))) for name in names}
    objects = []
    while size > 0:
        keys = {"".join(rng.choices("abcdefghij", k=rng.randrange(4, 8))) for _ in range(10)}
        objects.append({key: some_value(rng, names) for key in sorted(keys)})
        size -= len(text_of(objects[-1:]))
    return Input(text_of(objects).encode(), variables)


# A letter, and tables of the values of its names.

COLUMNS = [f"name_{number}" for number in range(10)]


def letter():
    """Returns a template of 1 KiB with ten names, one after each 90 bytes."""
    rng = random.Random(8)
    return "".join(f"{filler(rng, 90)}${{{name}}} " for name in COLUMNS) + filler(rng, 23) + "\n"


def table(count):
    """Yields the lines of a table in CSV, a head and this many rows. Each cell is one of a thousand short words."""
    rng = random.Random(9)
    words = [drawn(rng, VALUES, rng.randrange(4, 13)) for _ in range(1000)]
    yield ",".join(COLUMNS) + "\n"
    for _ in range(count):
        yield ",".join(rng.choices(words, k=len(COLUMNS))) + "\n"


def main():
    sums = {name: made.sum() for name, made in every().items()}
    known = {name: its_sum for name, (its_sum, _) in figures().items()}
    for name in sorted(sums.keys() | known.keys()):
        if sums.get(name) != known.get(name):
            print(f"{name}: the sum is {sums.get(name)}, and that of the figures is {known.get(name)}")
    for folder in map(Path, sys.argv[1:]):
        folder.mkdir(parents=True, exist_ok=True)
        for name, made in every().items():
            (folder / f"{name}.src").write_bytes(made.source)
            (folder / f"{name}.vars").write_bytes(made.lines())
    print(f"{len(sums.items() & known.items())} of {len(known)} inputs have their sums")
    sys.exit(0 if sums == known else 1)


if __name__ == "__main__":
    main()
