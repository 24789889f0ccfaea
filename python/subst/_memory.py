"""The encoding of sources and values, and the memory of calls."""
from __future__ import annotations

import ctypes
import functools
from abc import ABC, abstractmethod
from array import array
from typing import Any, AnyStr, Callable, Generic, List, NamedTuple, Sequence, Tuple, Type

# The indices of the words that a call writes: the length needed; a fault's kind, position and length; and a row. HEAD
# is how many these are. The words of a variable: its kind, and its name's position and length.
NEEDED, FAULT, ROW, HEAD = 0, 1, 4, 5
RECORD = 3
# The sizes of memory that is kept for later calls, in bytes and in words.
_KEPT_BYTES, _KEPT_WORDS = 1 << 16, 1 << 10
# The most bytes of a source that has frames, and of the values in a frame.
FRAME_SOURCE, FRAME_VALUES = 1 << 14, 1 << 10


class Encoding(ABC, Generic[AnyStr]):
    """The type of a source, its names, its values and its result."""

    kind: Type[AnyStr]
    # The types that are accepted as that type.
    types: Tuple[type, ...]

    @abstractmethod
    def joined(self, words: Sequence[AnyStr]) -> Tuple[bytes, List[int]]:
        """Returns the bytes of all words together, and their lengths. Raises TypeError for a word of another type."""

    @abstractmethod
    def decoded(self, output: bytearray) -> AnyStr:
        """Decodes bytes that the library wrote."""

    def encoded(self, word: AnyStr) -> bytes:
        """Returns the bytes of one word."""
        return self.joined([word])[0]

    @abstractmethod
    def parts(self, source: bytes, starts: Sequence[int], lengths: Sequence[int]) -> List[AnyStr]:
        """Returns these parts of a source, which are ASCII."""

    def cut(self, output: bytearray, ends: Sequence[int]) -> List[AnyStr]:
        """Returns the parts of an output that end at these offsets."""
        return [self.decoded(output[start:end]) for start, end in zip([0, *ends], ends)]


class _Text(Encoding[str]):
    """Text. Methods of str itself are called, since a subclass may override them."""

    kind, types = str, (str,)

    def joined(self, words: Sequence[str]) -> Tuple[bytes, List[int]]:
        text = ''.join(words)
        if text.isascii():
            return text.encode(), [*map(str.__len__, words)]
        parts = [str.encode(word) for word in words]
        return b''.join(parts), [*map(len, parts)]

    def encoded(self, word: str) -> bytes:
        return str.encode(word)

    def decoded(self, output: bytearray) -> str:
        return output.decode()

    def parts(self, source: bytes, starts: Sequence[int], lengths: Sequence[int]) -> List[str]:
        text = source.decode('latin-1')
        return [text[start:start + length] for start, length in zip(starts, lengths)]

    def cut(self, output: bytearray, ends: Sequence[int]) -> List[str]:
        text = output.decode()
        if not text.isascii():
            return super().cut(output, ends)
        return [text[start:end] for start, end in zip([0, *ends], ends)]


class _Bytes(Encoding[bytes]):
    """Bytes, also from a bytearray or a memoryview. A subclass of bytes may report another length than it has."""

    kind, types = bytes, (bytes, bytearray, memoryview)

    def joined(self, words: Sequence[bytes]) -> Tuple[bytes, List[int]]:
        if not {*map(type, words)} <= {bytes}:
            words = [_copied(word) for word in words]
        return b''.join(words), [*map(len, words)]

    def decoded(self, output: bytearray) -> bytes:
        return bytes(output)

    def parts(self, source: bytes, starts: Sequence[int], lengths: Sequence[int]) -> List[bytes]:
        return [source[start:start + length] for start, length in zip(starts, lengths)]


def _copied(word: object) -> bytes:
    if isinstance(word, (bytes, bytearray, memoryview)):
        return bytes(memoryview(word))
    raise TypeError(f'not bytes but {type(word).__name__}')


TEXT, BYTES = _Text(), _Bytes()


class Layout(NamedTuple):
    """An item of a call: its words, the index of its value's address, which the length follows, and that of a word that
    is 0 if there is no value."""

    width: int
    value: int
    given: int


# A pair, which without a value has an empty name, as no variable has; and the value of a variable with a number.
PAIRS, VALUES = Layout(4, 2, 1), Layout(3, 0, 2)


def address_of(memory: bytearray) -> int:
    """Returns the address of memory whose length never changes and isn't 0."""
    return ctypes.addressof(ctypes.c_char.from_buffer(memory))


class Memory:
    """The memory of one call at a time: words, first those that the call writes, and then pairs or other arguments; and
    bytes, for the values and then for the output."""

    __slots__ = ('words', 'head_at', 'fault_at', 'items_at', 'room', 'bytes_at', 'size', 'is_kept')

    def __init__(self, words: int, size: int, is_kept: bool = False) -> None:
        self.words = array('Q', (0,)) * (HEAD + words)
        self.head_at = self.words.buffer_info()[0]
        self.fault_at, self.items_at = self.head_at + 8 * FAULT, self.head_at + 8 * HEAD
        self.room, self.size, self.is_kept = bytearray(size or 1), size, is_kept
        self.bytes_at = address_of(self.room)

    @property
    def fault(self) -> Tuple[int, int, int]:
        """The kind of the fault, in the lower half of its word, its position and its length."""
        kind, position, length = self.words[FAULT:FAULT + 3]
        return kind & 0xffffffff, position, length

    def put(self, items: array[int], layout: Layout, values: bytes, lengths: Sequence[int],
            absent: Sequence[int] = ()) -> None:
        """Writes items of this layout and their values to memory, but no values for those that are absent."""
        self.room[:len(values)] = values
        width, value, given = layout
        words, at, index = self.words, self.bytes_at, HEAD + value
        words[HEAD:HEAD + len(items)] = items
        for length in lengths:
            words[index] = at
            words[index + 1] = length
            at += length
            index += width
        for missing in absent:
            words[HEAD + width * missing + given] = 0

    def has_value(self, index: int) -> bool:
        """Returns whether the pair at an index has a value, which may be empty."""
        return self.words[HEAD + PAIRS.width * index + PAIRS.given] > 0


class Frame(NamedTuple):
    """The memory of a source that is filled in often, and the call with all its arguments."""

    run: Callable[[], int]
    words: array[int]
    # The values, and after FRAME_VALUES bytes the output; and the address of these bytes.
    room: bytearray
    at: int


def frame_for(call: Callable[..., int], front: Sequence[Any], length: int, items: array[int], count: int) -> Frame:
    """Returns a frame for a call without declared types of arguments, with the first of these and with so many items,
    and for a source of this length."""
    size = 2 * FRAME_VALUES + length
    memory = Memory(len(items), size)
    memory.words[HEAD:HEAD + len(items)] = items
    address, number = ctypes.c_void_p.from_param, ctypes.c_size_t.from_param
    run = functools.partial(
        call, *(number(it) if isinstance(it, int) else ctypes.c_char_p.from_param(it) for it in front),
        address(memory.items_at), number(count), address(memory.bytes_at + FRAME_VALUES), number(size - FRAME_VALUES),
        address(memory.head_at), address(memory.fault_at))
    return Frame(run, memory.words, memory.room, memory.bytes_at)


_kept: List[Memory] = []


def taken(words: int, size: int) -> Memory:
    """Takes memory of this many words and bytes, for one caller until it is given back."""
    if words > _KEPT_WORDS or size > _KEPT_BYTES:
        return Memory(words, size)
    try:
        return _kept.pop()
    except IndexError:
        return Memory(_KEPT_WORDS, _KEPT_BYTES, True)


def given_back(memory: Memory) -> None:
    """Keeps memory for later calls, if it is of the kept sizes. Memory that isn't given back is freed."""
    if memory.is_kept:
        _kept.append(memory)
