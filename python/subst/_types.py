"""The types of arguments and results: the forms of texts, the kinds of faults and variables, and the errors."""
from __future__ import annotations

import enum
from typing import TYPE_CHECKING, Any, AnyStr, Generic, NamedTuple, Optional


class FaultKind(enum.IntEnum):
    """The kind of a fault: what is wrong with a source.

    INVALID_ESCAPE_SEQUENCE: a backslash before a character that can't be escaped, or at the end of the source.
    MISSING_VARIABLE_NAME: a placeholder with no name.
    UNEXPECTED_CHARACTER: a character that can't follow the name of a placeholder in braces.
    MISSING_CLOSING_BRACE: a placeholder whose opening brace is never closed.
    NO_SUCH_VARIABLE: a variable that is needed and has no value.
    """

    INVALID_ESCAPE_SEQUENCE = 1
    MISSING_VARIABLE_NAME = 2
    UNEXPECTED_CHARACTER = 3
    MISSING_CLOSING_BRACE = 4
    NO_SUCH_VARIABLE = 5


class VariableKind(enum.IntEnum):
    """The kind of a variable: how it expands if it is unset.

    REQUIRED: $name or ${name}. The source is refused.
    OPTIONAL: ${name?}, to nothing.
    WITH_DEFAULT: ${name:default}, to its default.
    """

    REQUIRED = 0
    OPTIONAL = 1
    WITH_DEFAULT = 2


class ShellForm(enum.IntEnum):
    """A form of a shell that has no template, or is refused in a text of another tool.

    DOLLAR: a dollar that no name, dollar or opening brace follows, as in $1, $(command) or 5 $.
    NO_NAME: ${ that no name follows, as in ${1} or ${#name}.
    MINUS: ${name-default}.
    QUESTION: ${name?message}.
    EQUALS: ${name=default}.
    PLUS: ${name+other}.
    COLON_EQUALS: ${name:=default}.
    COLON_PLUS: ${name:+other}.
    COLON: ${name:1:2}, and any other colon.
    HASH: ${name#pattern}.
    PERCENT: ${name%pattern}.
    SLASH: ${name/pattern/other}.
    OTHER: anything else after a name in braces.
    MESSAGE: an opening brace in the message of ${name:?message}.
    BRACE: an opening brace in a default.
    UNCLOSED: a variable whose opening brace is never closed.
    """

    DOLLAR = 1
    NO_NAME = 2
    MINUS = 3
    QUESTION = 4
    EQUALS = 5
    PLUS = 6
    COLON_EQUALS = 7
    COLON_PLUS = 8
    COLON = 9
    HASH = 10
    PERCENT = 11
    SLASH = 12
    OTHER = 13
    MESSAGE = 14
    BRACE = 15
    UNCLOSED = 16


class Forms(enum.IntEnum):
    """The forms of variables in a text of another tool.

    OWN: $name, ${name}, ${name?} and ${name:default}. A backslash is text. With a default that begins with one of - = ?
    and + it is no variable.
    ENVSUBST: $name and ${name}.
    SHELL: $name, ${name}, ${name:-default}, ${name-default}, ${name:+other}, ${name+other}, ${name:?message} and
    ${name?message}. With all names this is the whole language of Docker Compose: $$ is a dollar, and every other form
    after ${ is refused.
    COMMON: those of from_shell. An empty value counts as none, and an unset variable expands to nothing.
    """

    OWN = 0
    ENVSUBST = 1
    SHELL = 2
    COMMON = 3


if TYPE_CHECKING:
    class Variable(NamedTuple, Generic[AnyStr]):
        kind: VariableKind
        name: AnyStr
        position: int
else:
    class Variable(NamedTuple):
        """A variable of a source. Its name begins at source[position], which counts characters of a str, and bytes of
        bytes."""

        kind: VariableKind
        name: Any
        position: int

        # Python before 3.11 has no generic NamedTuple.
        __class_getitem__ = classmethod(lambda cls, _type: cls)


class _Located(ValueError):
    """An error with a message of its own and a span in a source."""

    message: str
    position: int
    length: int
    line: Optional[int]
    column: Optional[int]

    def _locate(self, message: str, position: int, length: int, line: Optional[int], column: Optional[int]) -> None:
        self.message = message
        self.position = position
        self.length = length
        self.line = line
        self.column = column

    def __str__(self) -> str:
        place = f'byte {self.position}' if self.line is None else f'line {self.line}, column {self.column}'
        return f'{self.message} ({place})'


class SubstError(_Located):
    """A refused source. The text of the error is its message with the line and the column.

    - message, kind: the library's text, and what is wrong. In a document or a tree the message begins with the path of
      the string, unless that is all of it.
    - position, length: the fault is source[position:position + length], in characters of a str, in bytes of bytes. For
      a document this is its text.
    - line, column: from 1, columns as in a terminal, a tab as one. None if the source isn't UTF-8.
    - highlighting: that line, with carets below the visible part of the fault. Empty if the source isn't UTF-8, if the
      line is wider than 60 columns, and for documents.
    - row: the index of the row that is refused in fill_in_each, or None for other calls.
    - name: that of a variable without a value, or None for other faults.
    """

    def __init__(self, message: str, kind: FaultKind, position: int, length: int, line: Optional[int],
                 column: Optional[int], highlighting: str, row: Optional[int] = None,
                 name: Optional[str] = None) -> None:
        super().__init__(message, kind, position, length, line, column, highlighting, row, name)
        self._locate(message, position, length, line, column)
        self.kind = kind
        self.highlighting = highlighting
        self.row = row
        self.name = name

    def below(self, path: str) -> SubstError:
        """Returns the same error for the string at a path of a tree."""
        return SubstError(f'{path}: {self.message}', *self.args[1:])


class DocumentError(_Located):
    """A text that isn't JSON, TOML or YAML, as the call requires, or bytes that aren't UTF-8. Its message is the
    reader's, which stopped at text[position:position + length]. line and column are as in SubstError.
    """

    def __init__(self, message: str, position: int, length: int, line: Optional[int], column: Optional[int]) -> None:
        super().__init__(message, position, length, line, column)
        self._locate(message, position, length, line, column)


class ShellError(_Located):
    """A text of another tool with a form that is refused. Its message is the library's. The form begins at
    text[position], with a dollar or a brace. line and column are as in SubstError.
    """

    def __init__(self, message: str, form: ShellForm, position: int, length: int, line: Optional[int],
                 column: Optional[int]) -> None:
        super().__init__(message, form, position, length, line, column)
        self._locate(message, position, length, line, column)
        self.form = form
