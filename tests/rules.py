"""The rules of the language in a hundred lines, written independently of the library, to compare its answers with.

Sources, names and values are bytes, and variables are a dictionary. A source that isn't a template has a fault.
"""
import re
from typing import NamedTuple

REQUIRED, OPTIONAL, WITH_DEFAULT = b'required', b'optional', b'default'
NAME = re.compile(rb'[0-9A-Za-z_]+')
PLAIN_BYTES = re.compile(rb'[^$\\]+')
BRACE = re.compile(rb'\\.|[{}]', re.DOTALL)


class Refused(Exception):
    """A fault or a missing variable: its case and its position."""


class Variable(NamedTuple):
    """A variable: its kind, the position of its name, the name, and its replacement if it is unset."""
    kind: bytes
    place: int
    name: bytes
    default: list


def parsed(source, at, end):
    """Returns the items of the source between two positions: bytes and variables."""
    items = []
    while at < end:
        if plain := PLAIN_BYTES.match(source, at, end):
            items.append(plain[0])
            at = plain.end()
        elif source[at:at + 1] == b'\\':
            if at + 1 == end or source[at + 1] not in b'\\${}:':
                raise Refused(b'InvalidEscapeSequence', at)
            items.append(source[at + 1:at + 2])
            at += 2
        else:
            item, at = placeholder(source, at, end)
            items.append(item)
    return items


def placeholder(source, at, end):
    """Returns the variable that begins at this dollar, and the position after it."""
    brace = at + 1 if source[at + 1:min(at + 2, end)] == b'{' else None
    name = NAME.match(source, at + 1 if brace is None else at + 2, end)
    if name is None:
        raise Refused(b'MissingVariableName', at)
    after = name.end()
    if brace is None or source[after:min(after + 1, end)] == b'}':
        return Variable(REQUIRED, name.start(), name[0], []), after if brace is None else after + 1
    if after == end:
        raise Refused(b'MissingClosingBrace', brace)
    if source[after:after + 1] == b':':
        closing = closing_brace(source, after + 1, end, brace)
        return Variable(WITH_DEFAULT, name.start(), name[0], parsed(source, after + 1, closing)), closing + 1
    if source[after:after + 1] != b'?':
        raise Refused(b'UnexpectedCharacter', after)
    if after + 1 == end:
        raise Refused(b'MissingClosingBrace', brace)
    if source[after + 1:after + 2] != b'}':
        raise Refused(b'UnexpectedCharacter', after + 1)
    return Variable(OPTIONAL, name.start(), name[0], []), after + 2


def closing_brace(source, at, end, brace):
    """Returns the position of the brace that closes the default at this position."""
    depth = 1
    for found in BRACE.finditer(source, at, end):
        depth += {b'{': 1, b'}': -1}.get(found[0], 0)
        if depth == 0:
            return found.start()
    raise Refused(b'MissingClosingBrace', brace)


def template(source):
    """Returns the items of a whole source."""
    return parsed(source, 0, len(source))


def values(items, variables):
    """Returns the concatenated bytes of items."""
    for item in items:
        if isinstance(item, bytes):
            yield item
        elif item.name in variables:
            yield variables[item.name]
        elif item.kind == REQUIRED:
            raise Refused(b'NoSuchVariable', item.place)
        else:
            yield from values(item.default, variables)


def variable_entries(items):
    """Returns the variables of items as an answer lists them, in the order of the source, also those in defaults."""
    entries = []
    for item in items:
        if isinstance(item, Variable):
            entries.append(b'%b@%d=%b' % (item.kind, item.place, item.name))
            entries += variable_entries(item.default)
    return entries


def missing_entries(items, variables):
    """Returns the needed variables of items that are unset, as an answer lists them."""
    entries = []
    for item in items:
        if isinstance(item, Variable) and item.name not in variables:
            if item.kind == REQUIRED:
                entries.append(b'%d=%b' % (item.place, item.name))
            entries += missing_entries(item.default, variables)
    return entries


def filled(tree, variables):
    """Returns the tree of a document with its strings filled in, arrays by index and keys in order."""
    if isinstance(tree, str):
        return b''.join(values(template(tree.encode()), variables)).decode()
    if isinstance(tree, list):
        return [filled(item, variables) for item in tree]
    return {key: filled(tree[key], variables) for key in sorted(tree)} if isinstance(tree, dict) else tree
