"""Texts of other tools, which are filled in by a style."""
from __future__ import annotations

from array import array
from typing import AnyStr, FrozenSet, Optional

from . import _foreign
from ._library import ALL_NAMES, DONE, KNOWN_NAMES, ONLY_NAMES, REFUSED_FORM, ROOM_TOO_SMALL, library as _library
from ._memory import Encoding, Memory, address_of
from ._source import Filler, error_texts, said, span
from ._types import FaultKind, Forms, ShellError, ShellForm, SubstError

# The words of a fault of a text: its kind and form, its position and length, and those of its message.
_FAULT = 5


class Text(Filler[AnyStr]):
    """A text in which these forms of chosen names are variables."""

    __slots__ = ('style', 'only', 'only_names', 'fault')

    def __init__(self, encoding: Encoding[AnyStr], given: AnyStr, forms: Forms, only: Optional[FrozenSet[bytes]],
                 known: bool, optional: bool, no_empty: bool) -> None:
        encoded = encoding.encoded(given)
        names = [encoding.decoded(bytearray(name)) for name in _foreign.names_in_text(encoded)
                 if only is None or name in only]
        super().__init__(encoding, encoded, self.filled, dict.fromkeys(names), len(names), no_empty)
        self.fault = array('Q', bytes(8 * _FAULT))
        self.only, self.only_names = array('Q'), bytearray(b''.join(only or ()) or b'\0')
        at = address_of(self.only_names)
        for name in only or ():
            self.only.extend((at, len(name), 0, 0))
            at += len(name)
        choice = KNOWN_NAMES if known else ALL_NAMES if only is None else ONLY_NAMES
        self.style = array('Q', (forms | choice << 32, optional, self.only.buffer_info()[0], len(only or ())))

    def filled(self, source: bytes, length: int, *arguments: int) -> int:
        """Calls the library with the style, and returns the result. A fault is written beside the memory."""
        result: int = _library.subst_bytes_by_style(source, length, self.style.buffer_info()[0], *arguments[:-1],
                                                    self.fault.buffer_info()[0])
        return result

    def refused(self, memory: Memory) -> Exception:
        word, position, length, message_at, message_length = self.fault
        place = span(self.encoding, self.encoded, position, length)
        if word & 0xffffffff == REFUSED_FORM:
            form = ShellForm(word >> 32)
            return ShellError(said(_library.subst_shell_form_text, form), form, *place)
        data = self.encoded[position:position + length]
        name, index = data.decode(), self.names.index(self.encoding.decoded(bytearray(data)))
        text, shown = error_texts(self.encoded, (FaultKind.NO_SUCH_VARIABLE, position, length))
        text = f'${name} is empty' if memory.has_value(index) else text
        message = self.expanded(self.encoded[message_at:message_at + message_length], memory).decode(errors='replace')
        return SubstError(f'{text}: {message}' if message else text, FaultKind.NO_SUCH_VARIABLE, *place, shown, None,
                          name)

    def expanded(self, message: bytes, memory: Memory) -> bytes:
        """Returns a message with its variables filled in from the pairs in memory, or as it is if it is refused."""
        needed = array('Q', (len(message),))
        while True:
            room = bytearray(needed[0] or 1)
            result = self.filled(message, len(message), memory.items_at, len(self.names), address_of(room), len(room),
                                 needed.buffer_info()[0], 0)
            if result != ROOM_TOO_SMALL:
                return bytes(room[:needed[0]]) if result == DONE else message
