"""Sources and documents, over the calls of the library."""
from __future__ import annotations

from abc import ABC, abstractmethod
from array import array
from collections import abc
from itertools import accumulate, chain, cycle
from operator import itemgetter
from typing import Any, AnyStr, Callable, FrozenSet, Generic, Iterable, List, Mapping, Optional, Sequence, Tuple

from . import _foreign
from ._library import (CELL, DONE, INVALID_DOCUMENT, NOT_CONFIRMED, NOT_UTF8, OUT_OF_MEMORY, REFUSED, ROOM_TOO_SMALL,
                       TOO_LONG, in_c as _in_c, library as _library)
from ._memory import (BYTES, FRAME_SOURCE, FRAME_VALUES, HEAD, NEEDED, PAIRS, RECORD, ROW, TEXT, VALUES, Encoding,
                      Frame, Memory, address_of, frame_for, given_back, taken)
from ._types import DocumentError, FaultKind, ShellError, ShellForm, SubstError, Variable, VariableKind

_Call = Callable[..., int]
_Joined = Tuple[bytes, List[int], Sequence[int]]
# The value of an unset variable, a mapping without values, and an item of the layout VALUES.
_ABSENT: Any = object()
NONE: Mapping[Any, Any] = {}
_VALUE = array('Q', (0, 0, 1))
# The most bytes that the first buffer of an output has beside the lengths of the source and of the values: for one row,
# and for several.
_MORE, _MOST = 1 << 20, 1 << 24
# The most dollars of a source whose records are kept, and the most names that are taken one by one.
_FEW = 64


class Filler(ABC, Generic[AnyStr]):
    """A text that is filled in, with the names that are looked up in a mapping."""

    __slots__ = ('encoding', 'encoded', 'length', 'call', 'front', 'names', 'all_of', 'uses', 'no_empty', 'layout',
                 'items', 'held', 'frames', 'is_used', 'fast')

    encoding: Encoding[AnyStr]
    names: Tuple[AnyStr, ...]
    frames: List[Frame]
    # The expansion by the module in C, if it is there. It returns None unless a dict has values of the right type.
    fast: Optional[Callable[[Any], Optional[AnyStr]]]

    def __init__(self, encoding: Encoding[Any], encoded: bytes, call: _Call, names: Iterable[Any], uses: int,
                 no_empty: bool, cells: Optional[bytes] = None) -> None:
        """Takes a call with the parameters of subst_bytes_into, or with cells those of subst_expand, the names in the
        order of their lookups, and the most variables that the text may have. With no_empty, an empty value counts as
        none."""
        self.encoding, self.encoded, self.length, self.call, self.uses = encoding, encoded, len(encoded), call, uses
        self.no_empty = no_empty
        self.names = tuple(names)
        self.all_of = _getter(self.names)
        self.front: Tuple[Any, ...] = (encoded, len(encoded))
        if cells is None:
            self.layout = PAIRS
            self.held, self.items = pairs_of(encoding, self.names)
        else:
            self.front = (cells, len(cells) // CELL, *self.front)
            self.layout, self.held, self.items = VALUES, bytearray(), _VALUE * len(self.names)
        self.frames = []
        self.is_used, self.fast = False, None

    @abstractmethod
    def refused(self, memory: Memory) -> Exception:
        """Returns the error for the fault that the call left in memory."""

    def fill_in(self, variables: Mapping[Any, Any], more: Mapping[str, Any]) -> AnyStr:
        """Fills in, by the module in C or by a frame if there is one, and returns the output."""
        values = self.asked(variables, more)
        if self.fast is not None:
            output = self.fast({name: value for name, value in zip(self.names, values) if value is not _ABSENT})
            if output is not None:
                return output
        lengths: Optional[List[int]]
        # No except clause raises or calls on, so that no error has another one as its context.
        try:
            joined, lengths = self.encoding.joined(values)
        except (TypeError, UnicodeEncodeError):
            lengths = None
        if lengths is None or self.no_empty and 0 in lengths:
            return self.fill_in_joined(*self.joined_singly(values))
        size, frames = len(joined), self.frames
        if not frames or size * self.uses > FRAME_VALUES:
            return self.fill_in_joined(joined, lengths, ())
        try:
            run, words, room, at = frame = frames.pop()
        except IndexError:
            # Another thread took the last frame.
            pass
        else:
            room[:size] = joined
            width, index, _ = self.layout
            index += HEAD
            for length in lengths:
                words[index] = at
                words[index + 1] = length
                at += length
                index += width
            if run() == DONE:
                output = self.encoding.decoded(room[FRAME_VALUES:FRAME_VALUES + words[NEEDED]])
                frames.append(frame)
                return output
        return self.fill_in_joined(joined, lengths, ())

    def fill_in_joined(self, joined: bytes, lengths: Sequence[int], absent: Sequence[int]) -> AnyStr:
        """Fills in from a result of `joined`, and returns the output."""
        start = len(joined)
        size = start + self.length + min(start * self.uses, start + _MORE)
        while True:
            memory = taken(len(self.items), size)
            memory.put(self.items, self.layout, joined, lengths, absent)
            result = self.call(*self.front, memory.items_at, len(lengths), memory.bytes_at + start, memory.size - start,
                               memory.head_at, memory.fault_at)
            if result == DONE:
                break
            if result != ROOM_TOO_SMALL:
                raise self.refused(memory) if result == REFUSED else self.failed(result, joined, lengths)
            size = start + memory.words[NEEDED]
        output = self.encoding.decoded(memory.room[start:start + memory.words[NEEDED]])
        given_back(memory)
        if self.is_used and not self.frames and self.length <= FRAME_SOURCE:
            self.frames.append(frame_for(_library[self.call.__name__], self.front, self.length, self.items,
                                         len(self.names)))
        self.is_used = True
        return output

    def failed(self, result: int, joined: bytes, lengths: Sequence[int]) -> Exception:
        """Returns the error for a result other than REFUSED, of a call with these values."""
        return _failure(result)

    def asked(self, variables: Mapping[Any, Any], more: Mapping[str, Any] = NONE) -> Sequence[Any]:
        """Returns the value of each name, or _ABSENT if both have none. Keyword arguments take precedence, but not an
        empty one that counts as none."""
        if type(variables) is dict and not more:
            try:
                return self.all_of(variables)
            except KeyError:
                return [variables.get(name, _ABSENT) for name in self.names]
        if not isinstance(variables, abc.Mapping):
            raise TypeError(f'variables must be a mapping, not {type(variables).__name__}')
        names: Tuple[Any, ...] = self.names
        values = []
        for name in names:
            value = more.get(name if isinstance(name, str) else name.decode(), _ABSENT)
            if value is _ABSENT or self.no_empty and isinstance(value, self.encoding.types) and not value:
                try:
                    value = variables[name]
                except KeyError:
                    pass
            values.append(value)
        return values

    def joined(self, values: Sequence[Any]) -> _Joined:
        """Returns these values, of the names in turn, as the library takes them: the bytes of all, the length of each,
        and the indices of those that are absent. Raises TypeError for a value of another type, and UnicodeEncodeError
        for one with a lone surrogate."""
        if not self.no_empty:
            try:
                return (*self.encoding.joined(values), ())
            except (TypeError, UnicodeEncodeError):
                pass
        return self.joined_singly(values)

    def joined_singly(self, values: Sequence[Any]) -> _Joined:
        """Does what `joined` does, for values of which some may be absent, empty or wrong."""
        given: List[Any] = []
        absent: List[int] = []
        for index, (name, value) in enumerate(zip(cycle(self.names), values)):
            if value is _ABSENT:
                absent.append(index)
                value = self.encoding.kind()
            elif not isinstance(value, self.encoding.types):
                wanted = self.encoding.kind.__name__
                raise TypeError(f'the value of {name!r} must be {wanted} as the source is, not {type(value).__name__}')
            given.append(value)
        try:
            joined, lengths = self.encoding.joined(given)
        except UnicodeEncodeError as error:
            fault = _named(error, next(name for name, value in zip(cycle(self.names), given) if value is error.object))
        else:
            if self.no_empty:
                absent = [index for index, length in enumerate(lengths) if length == 0]
            return joined, lengths, absent
        raise fault


class Source(Filler[AnyStr]):
    """A source that is a template."""

    __slots__ = ('given', 'original', 'only', 'is_optional', 'records', 'places', 'pairs')

    given: AnyStr

    def __init__(self, encoding: Encoding[AnyStr], given: AnyStr, only: Optional[FrozenSet[bytes]] = None,
                 optional: bool = False, no_empty: bool = False) -> None:
        """Raises SubstError if the source is no template."""
        original = encoded = encoding.encoded(given)
        self.given = given if isinstance(given, encoding.kind) else encoding.decoded(bytearray(original))
        self.original, self.only, self.is_optional = original, only, optional
        starts: Sequence[int] = ()
        if only is not None:
            encoded, starts = _foreign.template_for(original, only.__contains__, optional)
        elif optional:
            records = _records(encoding, original, original.count(b'$'))
            starts = records[1::RECORD]
            encoded = _foreign.with_optional(original, [
                (start, start + length) for kind, start, length in _triples(records) if kind == VariableKind.REQUIRED])
        uses = encoded.count(b'$')
        cells = _parsed(encoding, encoded, uses)
        # The records of the variables of the template, unless it is long.
        self.records = _records(encoding, encoded, uses) if starts or uses <= _FEW else None
        # The offset in the source of each name, by its offset in the template.
        self.places = dict(zip(self.records[1::RECORD], starts)) if starts and self.records else {}
        super().__init__(encoding, encoded, _library.subst_bytes_into if cells is None else _library.subst_expand,
                         _names(encoding, encoded, uses, cells, self.records), uses, no_empty, cells)
        self.pairs: Optional[Tuple[bytearray, array[int]]] = None
        if _in_c is not None and cells is not None:
            self.fast = _in_c.template(cells, encoded, self.names, encoding is TEXT, no_empty)

    def refused(self, memory: Memory) -> SubstError:
        return self.error(memory.fault)

    def error(self, fault: Tuple[int, int, int], row: Optional[int] = None) -> SubstError:
        """Returns the error for a fault of the template."""
        kind, position, length = fault
        return _refused(self.encoding, self.original, (kind, self.places.get(position, position), length), row)

    def fill_in_each(self, rows: Iterable[Mapping[Any, Any]]) -> List[AnyStr]:
        if self.fast is not None:
            rows = [*rows]
            outputs = [output for output in map(self.fast, rows) if output is not None]
            if len(outputs) == len(rows):
                return outputs
        asked: List[Sequence[Any]] = [self.asked(variables) for variables in rows]
        count = len(asked)
        values, lengths, absent = self.joined([*chain.from_iterable(asked)])
        items, start, width = self.items * count, len(values), 8 * len(self.items)
        size = start + min(count * self.length + start * self.uses, start + _MOST)
        rows_from, ends_from = HEAD + len(items), HEAD + len(items) + 2 * count
        call = _library.subst_expand_each if self.layout is VALUES else _library.subst_bytes_each
        while True:
            memory = Memory(len(items) + 3 * count, size)
            memory.put(items, self.layout, values, lengths, absent)
            memory.words[rows_from:ends_from:2] = array('Q', [memory.items_at + width * row for row in range(count)])
            memory.words[rows_from + 1:ends_from:2] = array('Q', [len(self.names)]) * count
            result = call(*self.front, memory.head_at + 8 * rows_from, count, memory.bytes_at + start,
                          memory.size - start, memory.head_at + 8 * ends_from, count, memory.head_at,
                          memory.head_at + 8 * ROW, memory.fault_at)
            if result == DONE:
                output = memory.room[start:start + memory.words[NEEDED]]
                return self.encoding.cut(output, memory.words[ends_from:])
            if result != ROOM_TOO_SMALL:
                raise self.error(memory.fault, memory.words[ROW]) if result == REFUSED else _failure(result)
            size = start + memory.words[NEEDED]

    def variables(self) -> List[Variable[AnyStr]]:
        records = self.records
        return self.listed(_records(self.encoding, self.encoded, self.uses) if records is None else records)

    def missing(self, variables: Mapping[Any, Any], more: Mapping[str, Any]) -> List[Variable[AnyStr]]:
        values, lengths, absent = self.joined(self.asked(variables, more))
        if self.pairs is None:
            self.pairs = pairs_of(self.encoding, self.names)
        _, pairs = self.pairs
        memory, found = taken(len(pairs), len(values)), Memory(RECORD * self.uses, 0)
        memory.put(pairs, PAIRS, values, lengths, absent)
        result = _library.subst_missing(self.encoded, self.length, memory.items_at, len(lengths), found.items_at,
                                        self.uses, found.head_at, found.fault_at)
        if result != DONE:
            raise _failure(result)
        given_back(memory)
        return self.listed(found.words[HEAD:HEAD + RECORD * found.words[NEEDED]])

    def listed(self, records: Sequence[int]) -> List[Variable[AnyStr]]:
        """Returns the variables of these records of the template."""
        places = [self.places.get(start, start) for start in records[1::RECORD]]
        indices = _indices(self.encoding, self.original, places)
        names = self.encoding.parts(self.encoded, records[1::RECORD], records[2::RECORD])
        kinds = [VariableKind(kind) for kind, _, _ in _triples(records)]
        return [Variable(kind, name, index) for kind, name, index in zip(kinds, names, indices)]


class Document(Filler[AnyStr]):
    """A document whose strings are filled in."""

    __slots__ = ('kind',)

    def __init__(self, encoding: Encoding[AnyStr], kind: str, given: AnyStr, no_empty: bool) -> None:
        """Takes a document of the kind json, toml or yaml."""
        encoded = encoding.encoded(given)
        found = _foreign.names_in_document(kind, encoded)
        names = [encoding.decoded(bytearray(name)) for name in dict.fromkeys(found)]
        super().__init__(encoding, encoded, getattr(_library, f'subst_{kind}'), names, len(found), no_empty)
        self.kind = kind

    def refused(self, memory: Memory) -> Exception:
        text = said(getattr(_library, f'subst_{self.kind}_fault_text'), self.encoded, self.length, memory.items_at,
                     len(self.names))
        kind, position, length = memory.fault
        if kind == INVALID_DOCUMENT:
            return DocumentError(text, *span(self.encoding, self.encoded, position, length))
        return _error(self.encoding, self.encoded, memory.fault, text)

    def failed(self, result: int, joined: bytes, lengths: Sequence[int]) -> Exception:
        """Returns the error for this result, also for a document or a value, in bytes, that isn't UTF-8."""
        if result != NOT_UTF8:
            return _failure(result)
        ends: List[int] = [*accumulate(lengths)]
        values: List[bytes] = [joined[start:end] for start, end in zip([0, *ends], ends)]
        for name, data in zip((None, *self.names), (self.encoded, *values)):
            try:
                data.decode()
            except UnicodeDecodeError as error:
                if name is None:
                    return DocumentError('invalid UTF-8', *span(self.encoding, data, error.start, 1))
                return _named(error, name)
        return _failure(result)


def _getter(names: Sequence[Any]) -> Callable[[Mapping[Any, Any]], Sequence[Any]]:
    """Returns a function that looks up the values of names."""
    if len(names) > 1:
        return itemgetter(*names)
    return lambda variables: [variables[name] for name in names]


# Arguments and texts of calls


def check(encoding: Encoding[Any], source: bytes) -> None:
    memory = taken(0, 0)
    result = _library.subst_check(source, len(source), memory.fault_at)
    if result != DONE:
        raise _refused(encoding, source, memory.fault) if result == REFUSED else _failure(result)
    given_back(memory)


def from_shell(encoding: Encoding[AnyStr], text: bytes) -> AnyStr:
    """Returns the template for a text with a shell's variables. Raises ShellError for the first form that has none."""
    result, memory = _put(
        lambda memory: _library.subst_from_shell(text, len(text), memory.bytes_at, memory.size, memory.head_at,
                                                 memory.fault_at, memory.fault_at + 8), 2 * len(text))
    if result == DONE:
        return encoding.decoded(memory.room[:memory.words[NEEDED]])
    form, position, _ = memory.fault
    raise ShellError(said(_library.subst_shell_form_text, form), ShellForm(form), *span(encoding, text, position, 1))


def _parsed(encoding: Encoding[Any], source: bytes, uses: int) -> Optional[bytes]:
    """Returns the cells of a source with this many dollars, or None if it is too long for them. Raises SubstError if it
    is no template."""
    memory = taken(6 * uses, 0)
    while True:
        most = (len(memory.words) - HEAD) // 2
        result = _library.subst_parse(source, len(source), 0, memory.items_at, most, memory.head_at, memory.fault_at)
        if result == DONE:
            cells = memory.words[HEAD:HEAD + 2 * memory.words[NEEDED]].tobytes()
            given_back(memory)
            return cells
        if result == TOO_LONG:
            return None
        if result != ROOM_TOO_SMALL:
            raise _refused(encoding, source, memory.fault) if result == REFUSED else _failure(result)
        memory = Memory(2 * memory.words[NEEDED], 0)


def _names(encoding: Encoding[AnyStr], source: bytes, uses: int, cells: Optional[bytes],
           records: Optional[array[int]]) -> Iterable[AnyStr]:
    """Returns the names of a template with this many dollars, in the order of their numbers: by its records, or one by
    one if it has none and the names are few."""
    size = 0 if cells is None else len(cells) // CELL
    count = _library.subst_template_variables(cells, size) if size and records is None else 0
    if not 0 < count <= _FEW:
        records = _records(encoding, source, uses) if records is None else records
        return dict.fromkeys(encoding.parts(source, records[1::RECORD], records[2::RECORD]))
    memory = taken(RECORD, 0)
    names = []
    for number in range(count):
        _library.subst_template_variable(cells, size, source, len(source), number, memory.items_at)
        _, start, length = memory.words[HEAD:HEAD + RECORD]
        names.append(encoding.decoded(bytearray(source[start:start + length])))
    given_back(memory)
    return names


def pairs_of(encoding: Encoding[Any], names: Sequence[Any]) -> Tuple[bytearray, array[int]]:
    """Returns the bytes of names, and pairs of these with no values."""
    joined, lengths = encoding.joined(names)
    held = bytearray(joined or b'\0')
    at, pairs = address_of(held), array('Q')
    for length in lengths:
        pairs.extend((at, length, 0, 0))
        at += length
    return held, pairs


def _records(encoding: Encoding[Any], source: bytes, count: int) -> array[int]:
    """Returns the records of the variables of a source, which has at most as many as these dollars."""
    memory = taken(RECORD * count, 0)
    result = _library.subst_variables(source, len(source), memory.items_at, count, memory.head_at, memory.fault_at)
    if result != DONE:
        raise _refused(encoding, source, memory.fault) if result == REFUSED else _failure(result)
    found = memory.words[HEAD:HEAD + RECORD * memory.words[NEEDED]]
    given_back(memory)
    return found


def _triples(records: Sequence[int]) -> Iterable[Tuple[int, int, int]]:
    """Returns the kind of each variable, in the lower half of its word, and the position and the length of its name."""
    return zip((word & 0xffffffff for word in records[0::RECORD]), records[1::RECORD], records[2::RECORD])


def _named(error: UnicodeError, name: object) -> UnicodeError:
    """Returns the error of a value with the name of its variable."""
    return type(error)(*error.args[:-1], f'{error.args[-1]} in the value of {name!r}')


def _failure(result: int) -> Exception:
    """Returns the error for a result, other than that for a refused source."""
    if result == NOT_CONFIRMED:
        return RuntimeError('the document with its strings filled in was not confirmed')
    return MemoryError('subst is out of memory')


def _refused(encoding: Encoding[Any], source: bytes, fault: Tuple[int, int, int],
             row: Optional[int] = None) -> SubstError:
    """Returns the error for a fault of a source."""
    return _error(encoding, source, fault, *error_texts(source, fault), row)


def error_texts(source: bytes, fault: Tuple[int, int, int]) -> Tuple[str, str]:
    """Returns the text of a fault, and its line with the fault underlined."""
    words = array('Q', fault)
    arguments = source, len(source), words.buffer_info()[0]
    return said(_library.subst_error_text, *arguments), said(_library.subst_error_highlighting, *arguments)


def _error(encoding: Encoding[Any], source: bytes, fault: Tuple[int, int, int], text: str, shown: str = '',
           row: Optional[int] = None) -> SubstError:
    """Returns the error with this text. The text about an unset variable ends in its name."""
    kind, position, length = fault
    name = text.rpartition('$')[2] if kind == FaultKind.NO_SUCH_VARIABLE else None
    return SubstError(text, FaultKind(kind), *span(encoding, source, position, length), shown, row, name)


def _put(call: Callable[[Memory], Any], size: int) -> Tuple[int, Memory]:
    """Makes a call until its memory is large enough, first with this many bytes. Returns the result and the memory."""
    while True:
        memory = Memory(0, size)
        result = call(memory)
        if result == OUT_OF_MEMORY:
            raise _failure(result)
        if result != ROOM_TOO_SMALL:
            return result, memory
        size = memory.words[NEEDED]


def said(call: _Call, *arguments: Any) -> str:
    """Returns the text that a call writes, or an empty one if it isn't done."""
    result, memory = _put(lambda memory: call(*arguments, memory.bytes_at, memory.size, memory.head_at), 256)
    return memory.room[:memory.words[NEEDED]].decode() if result == DONE else ''


def span(encoding: Encoding[Any], source: bytes, position: int,
          length: int) -> Tuple[int, int, Optional[int], Optional[int]]:
    """Returns the position and the length of a part of the source, and its line and column."""
    start, end = _indices(encoding, source, [position, position + length])
    return (start, end - start, *_place(source, position))


def _place(source: bytes, offset: int) -> Tuple[Optional[int], Optional[int]]:
    """Returns the line and the column at an offset, or None for both if the source isn't UTF-8."""
    memory = taken(2, 0)
    at = memory.items_at
    if _library.subst_place(source, len(source), offset, at, at + 8) != DONE:
        return None, None
    line, column = memory.words[HEAD:HEAD + 2]
    given_back(memory)
    return line, column


def _indices(encoding: Encoding[Any], source: bytes, offsets: Iterable[int]) -> List[int]:
    """Converts ascending byte offsets to indices of the source as it was given."""
    if encoding is BYTES or source.isascii():
        return list(offsets)
    found: List[int] = []
    before = index = 0
    for offset in offsets:
        index += len(source[before:offset].decode('utf-8'))
        before = offset
        found.append(index)
    return found
