"""Templates for texts of other tools, and for sources whose variables are optional."""
from __future__ import annotations

import re
from typing import Callable, List, Sequence, Tuple

# A placeholder of envsubst, or a byte that a template has to escape.
_SPECIAL = re.compile(rb'\$(?:([0-9A-Za-z_]+)|\{([0-9A-Za-z_]+)\})|[$\\]')


def template_for(text: bytes, is_chosen: Callable[[bytes], bool], optional: bool) -> Tuple[bytes, List[int]]:
    """Returns a template for a text in which $NAME and ${NAME} of the chosen names are variables and all else is text,
    and the byte offsets in the text of these variables' names. Optional ones expand to nothing if they are unset."""
    places: List[int] = []

    def written(special: re.Match[bytes]) -> bytes:
        name = special[1] or special[2]
        if not name or not is_chosen(name):
            return b'\\' + special[0]
        places.append(special.start(special.lastindex or 0))
        return b'${%b?}' % name if optional else special[0]

    return _SPECIAL.sub(written, text), places


def is_shell_name(name: bytes) -> bool:
    """Returns whether a name is one of envsubst's: it begins with no digit."""
    return not name[:1].isdigit()


def with_optional(template: bytes, required: Sequence[Tuple[int, int]]) -> bytes:
    """Returns the template with ${name?} in place of these variables, $name or ${name}, each by the start and the end
    of its name."""
    parts, before = [], 0
    for start, end in required:
        is_braced = template[start - 1:start] == b'{'
        parts += [template[before:start - (2 if is_braced else 1)], b'${', template[start:end], b'?}']
        before = end + 1 if is_braced else end
    return b''.join([*parts, template[before:]])


# A name after a dollar, in a text or in a string of a document.
_USED = re.compile(rb'\$\{?([0-9A-Za-z_]+)')
# Escapes of characters and of line ends, by the kind of document. JSON has no escaped line ends.
_ESCAPES = {kind: re.compile(rb'\\(?:[uUx]((?<=u)[0-9A-Fa-f]{4}|(?<=U)[0-9A-Fa-f]{8}|(?<=x)[0-9A-Fa-f]{2})|%b|.)' % line,
                             re.DOTALL)
            for kind, line in (('json', rb'\n'), ('toml', rb'\s*\n\s*'), ('yaml', rb'\r?\n[ \t]*'))}


def names_in_text(text: bytes) -> List[bytes]:
    """Returns the names that a text may use, in order: those after its dollars."""
    return _USED.findall(text)


def names_in_document(kind: str, document: bytes) -> List[bytes]:
    """Returns the names that the strings of a document may use, in order: those after its dollars, also in keys and
    comments, once escapes are read."""
    if b'\\' in document:
        document = _ESCAPES[kind].sub(_meant, document)
    return names_in_text(document)


def _meant(escape: re.Match[bytes]) -> bytes:
    """Returns the ASCII character that an escape spells, nothing for an escaped line end, or a byte of no name."""
    if escape[1]:
        return bytes([min(int(escape[1], 16), 0x7f)])
    return b'' if b'\n' in escape[0] else b' '
