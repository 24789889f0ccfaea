"""Shell-like variables in texts and byte strings: $name, ${name}, ${name?} and ${name:default}.

    >>> fill_in('Hello $name!', {'name': 'world'})
    'Hello world!'
    >>> fill_in(b'Hello ${name:nobody}!', {})
    b'Hello nobody!'

An unset ${name?} expands to nothing, and an unset ${name:default} to its default, which is a template too. A backslash
escapes each of \\ $ { } and :. Values are inserted as they are, and never parsed as templates.

A source is str or bytes, and its names, values and result have the same type. A bytearray or a memoryview counts as
bytes. Any other type raises TypeError; nothing is converted. Only the names of the source are looked up in a mapping,
once each, in the order of the source. Values may be keyword arguments too, which take precedence over the mapping, as
in fill_in('Hello $name!', name='world'). In such calls the source and the mapping are positional.

With only, $NAME and ${NAME} of these names alone are variables, and all else is text, as in the files of envsubst. With
optional=True, an unset variable expands to nothing. With no_empty=True, a variable with an empty value is unset.

    >>> print(fill_in('C:\\\\dir costs $5 on $HOST${PORT}', HOST='db', only=['HOST', 'PORT'], optional=True))
    C:\\dir costs $5 on db

only=mapping means the mapping's own names. All other variables then stay, as with string.Template.safe_substitute, but
here $$ stays too.

    >>> fill_in('Dear $name, $5 for $tea', row := {'name': 'Ann'}, only=row)
    'Dear Ann, $5 for $tea'

A variable with the name of an option, such as $optional, gets its value in the mapping. An option of a wrong type
raises TypeError.

A refused source raises SubstError, and a lack of memory raises MemoryError. A str with lone surrogates, as in a value
of os.environ, raises UnicodeEncodeError if it is used, which names the variable. Several threads may call at once, and
each lets the others run while it works on more than 64 KiB. Templates of the last short sources are cached.

fill_in_json, fill_in_toml and fill_in_yaml fill in the strings of a document, and leave all else as it is. A document
in bytes has to be UTF-8, or DocumentError is raised. So have its values, or UnicodeDecodeError is raised.

The package calls the library libsubst.so.0: the file that the environment variable SUBST_LIBRARY names, or else the one
in the folder of this package, or three folders above it, where tools/install puts it, or the one that the loader finds.
Calls are made by subst._fast, a module in C, or by ctypes if the package has no such module or SUBST_FAST is 0.
"""
from __future__ import annotations

from typing import Any, AnyStr, Dict, FrozenSet, Generic, Iterable, List, Mapping, Optional, Tuple, Union, overload

from . import _foreign
from ._library import in_c as _in_c, version as _version
from ._memory import BYTES as _BYTES, TEXT as _TEXT, Encoding as _Encoding
from ._source import (NONE as _NONE, Document as _Document, Source as _Source, check as _check,
                      from_shell as _from_shell)
from ._style import Text as _Text
from ._types import DocumentError, FaultKind, Forms, ShellError, ShellForm, SubstError, Variable, VariableKind

__all__ = ['DocumentError', 'FaultKind', 'Forms', 'ShellError', 'ShellForm', 'SubstError', 'Template', 'Variable',
           'VariableKind', 'check', 'fill_in', 'fill_in_by_style', 'fill_in_json', 'fill_in_toml', 'fill_in_tree',
           'fill_in_yaml', 'from_envsubst', 'from_shell', 'missing', 'variables']

# The types that count as bytes.
_BytesLike = Union[bytes, bytearray, memoryview]


class Template(Generic[AnyStr]):
    """A checked source: only an unset variable can be wrong with it. It is immutable, and equal to any other with the
    same source, only, optional and no_empty. So is each copy, also by pickle, which parses the source again.

        >>> letter = Template('Dear ${name:friend},')
        >>> letter.fill_in_each([{'name': 'Ann'}, {}])
        ['Dear Ann,', 'Dear friend,']
    """

    __slots__ = ('_source',)

    _source: _Source[AnyStr]

    @overload
    def __init__(self: Template[str], source: str, *, only: Optional[Iterable[str]] = ..., optional: bool = ...,
                 no_empty: bool = ...) -> None: ...

    @overload
    def __init__(self: Template[bytes], source: _BytesLike, *, only: Optional[Iterable[_BytesLike]] = ...,
                 optional: bool = ..., no_empty: bool = ...) -> None: ...

    def __init__(self, source: Any, *, only: Optional[Iterable[Any]] = None, optional: bool = False,
                 no_empty: bool = False) -> None:
        """Parses the source. Raises SubstError if it is no template."""
        self._source = _source_of(source, only, optional, no_empty)

    def __repr__(self) -> str:
        named = zip(('only', 'optional', 'no_empty'), self._choice())
        words: List[str] = [f'{name}={value!r}' for name, value in named if value not in (None, False)]
        return f'Template({", ".join([repr(self.source), *words])})'

    def __eq__(self, other: object) -> bool:
        return isinstance(other, Template) and self._key() == other._key()

    def __hash__(self) -> int:
        return hash(self._key())

    def __reduce__(self) -> Any:
        return _template, (self.source, *self._choice())

    @property
    def source(self) -> AnyStr:
        """The source of this template."""
        return self._source.given

    def fill_in(self, variables: Mapping[AnyStr, AnyStr] = _NONE, /, **more: AnyStr) -> AnyStr:
        """Expands the template, and returns the output. Raises SubstError if a needed variable is unset."""
        source = self._source
        if source.fast is not None and (not more or variables is _NONE and source.encoding is _TEXT):
            output = source.fast(more or variables)
            if output is not None:
                return output
        return source.fill_in(variables, more)

    def fill_in_each(self, rows: Iterable[Mapping[AnyStr, AnyStr]]) -> List[AnyStr]:
        """Expands the template for each row of variables, and returns the outputs in order.

        Raises SubstError for the first row in which a needed variable is unset.
        """
        return self._source.fill_in_each(rows)

    def variables(self) -> List[Variable[AnyStr]]:
        """Returns the variables in the order of the source, also those in defaults. A name that occurs twice is listed
        twice."""
        return self._source.variables()

    def missing(self, variables: Mapping[AnyStr, AnyStr] = _NONE, /, **more: AnyStr) -> List[Variable[AnyStr]]:
        """Returns the variables that are needed and unset, in the order of the source. Those of a default are needed
        only if it is used."""
        return self._source.missing(variables, more)

    def _choice(self) -> Any:
        source = self._source
        names = None if source.only is None else [source.encoding.decoded(bytearray(name)) for name in sorted(source.only)]
        return names, source.is_optional, source.no_empty

    def _key(self) -> Any:
        source = self._source
        return source.encoding.kind, source.original, source.only, source.is_optional, source.no_empty


def _template(source: Any, only: Optional[Iterable[Any]], optional: bool, no_empty: bool = False) -> Template[Any]:
    return Template(source, only=only, optional=optional, no_empty=no_empty)


@overload
def fill_in(source: str, variables: Mapping[str, str] = ..., /, *, only: Optional[Iterable[str]] = ...,
            optional: bool = ..., no_empty: bool = ..., **more: str) -> str: ...


@overload
def fill_in(source: _BytesLike, variables: Mapping[bytes, _BytesLike] = ..., /, *,
            only: Optional[Iterable[_BytesLike]] = ..., optional: bool = ..., no_empty: bool = ...,
            **more: _BytesLike) -> bytes: ...


def fill_in(source: Any, variables: Mapping[Any, Any] = _NONE, /, *, only: Optional[Iterable[Any]] = None,
            optional: bool = False, no_empty: bool = False, **more: Any) -> Any:
    """Expands a source, and returns the output. Raises SubstError if the source is refused."""
    if only is None and optional is False and no_empty is False:
        return _filled(source, variables, more)
    return _source_of(source, only, optional, no_empty).fill_in(variables, more)


@overload
def fill_in_json(text: str, variables: Mapping[str, str] = ..., /, *, no_empty: bool = ..., **more: str) -> str: ...


@overload
def fill_in_json(text: _BytesLike, variables: Mapping[bytes, _BytesLike] = ..., /, *, no_empty: bool = ...,
                 **more: _BytesLike) -> bytes: ...


def fill_in_json(text: Any, variables: Mapping[Any, Any] = _NONE, /, *, no_empty: bool = False, **more: Any) -> Any:
    """Fills in the strings of a JSON document, each as a source of its own, and returns the document. All else stays as
    it is, also keys, numbers and white space. All names after a dollar are looked up in the mapping, also those in
    keys.

        >>> print(fill_in_json('{"name":  "$name", "price": 2.50}', {'name': 'a"b'}))
        {"name":  "a\\"b", "price": 2.50}

    Raises DocumentError if the text isn't JSON, and SubstError for the first string that is refused.
    """
    return _document_of('json', text, no_empty).fill_in(variables, more)


@overload
def fill_in_toml(text: str, variables: Mapping[str, str] = ..., /, *, no_empty: bool = ..., **more: str) -> str: ...


@overload
def fill_in_toml(text: _BytesLike, variables: Mapping[bytes, _BytesLike] = ..., /, *, no_empty: bool = ...,
                 **more: _BytesLike) -> bytes: ...


def fill_in_toml(text: Any, variables: Mapping[Any, Any] = _NONE, /, *, no_empty: bool = False, **more: Any) -> Any:
    """Fills in the strings of a TOML document, as fill_in_json does. Comments and dates stay as they are too.

        >>> print(fill_in_toml('name = "$name" # $name', {'name': 'a"b'}))
        name = "a\\"b" # $name

    Raises DocumentError if the text isn't TOML, and SubstError for the first string that is refused.
    """
    return _document_of('toml', text, no_empty).fill_in(variables, more)


@overload
def fill_in_yaml(text: str, variables: Mapping[str, str] = ..., /, *, no_empty: bool = ..., **more: str) -> str: ...


@overload
def fill_in_yaml(text: _BytesLike, variables: Mapping[bytes, _BytesLike] = ..., /, *, no_empty: bool = ...,
                 **more: _BytesLike) -> bytes: ...


def fill_in_yaml(text: Any, variables: Mapping[Any, Any] = _NONE, /, *, no_empty: bool = False, **more: Any) -> Any:
    """Fills in the values of one or several YAML documents in a text, as fill_in_json does. Keys, anchors, tags and
    comments stay as they are too. Without quotes YAML decides what a value is, such as a number; in quotes it is a
    string. A value that doesn't fit in its place, or in its quotes, gets double quotes.

        >>> print(fill_in_yaml('port: $port # $port\\nname: $name', {'port': '80', 'name': 'a: b'}))
        port: 80 # $port
        name: "a: b"

    Raises DocumentError if the text isn't YAML that the library reads, and SubstError for the first value that is
    refused.
    """
    return _document_of('yaml', text, no_empty).fill_in(variables, more)


def fill_in_tree(tree: Any, variables: Mapping[str, str] = _NONE, /, *, only: Optional[Iterable[str]] = None,
                 optional: bool = False, no_empty: bool = False, **more: str) -> Any:
    """Fills in each str of a tree of dict and list, as a source of its own, and returns a new tree. Keys and all other
    objects stay as they are, also tuples.

        >>> fill_in_tree({'$name': ['$name', 2.5]}, name='x')
        {'$name': ['x', 2.5]}

    Raises SubstError for the first str that is refused.
    """
    choice = _choice_of(_TEXT, only, optional, no_empty)
    is_plain = choice == (None, False, False)

    def filled(node: Any, path: str) -> Any:
        if isinstance(node, dict):
            return {key: filled(value, f"{path}/{str(key).replace('~', '~0').replace('/', '~1')}")
                    for key, value in node.items()}
        if isinstance(node, list):
            return [filled(value, f'{path}/{index}') for index, value in enumerate(node)]
        if not isinstance(node, str):
            return node
        try:
            if is_plain:
                return _filled(node, variables, more)
            return _Source(_TEXT, node, *choice).fill_in(variables, more)
        except SubstError as error:
            refused = error
        raise refused.below(path) if path else refused

    return filled(tree, '')


@overload
def fill_in_by_style(text: str, variables: Mapping[str, str] = ..., /, *, forms: Forms,
                     only: Optional[Iterable[str]] = ..., known: bool = ..., optional: bool = ...,
                     no_empty: bool = ..., **more: str) -> str: ...


@overload
def fill_in_by_style(text: _BytesLike, variables: Mapping[bytes, _BytesLike] = ..., /, *, forms: Forms,
                     only: Optional[Iterable[_BytesLike]] = ..., known: bool = ..., optional: bool = ...,
                     no_empty: bool = ..., **more: _BytesLike) -> bytes: ...


def fill_in_by_style(text: Any, variables: Mapping[Any, Any] = _NONE, /, *, forms: Forms,
                     only: Optional[Iterable[Any]] = None, known: bool = False, optional: bool = False,
                     no_empty: bool = False, **more: Any) -> Any:
    """Expands a text of another tool, and returns the output. Variables have these forms, and any name by default; with
    only, one of these names; with known=True, a name that has a value, or any name in a form with a default, another
    value or a message. All else is text. All names after a dollar are looked up in the mapping, or only those in only.

        >>> fill_in_by_style('listen ${PORT:-80}; $host', forms=Forms.SHELL, only=['PORT'])
        'listen 80; $host'

    Raises ShellError for the first form that is refused, and SubstError if a variable has no value, with its message.
    With optional=True, a variable without a default or a message expands to nothing instead.
    """
    if not isinstance(forms, int):
        raise _wrong_option('forms', 'one of Forms')
    if _flag('known', known) and only is not None:
        raise TypeError('only and known are two choices of names: give one of them')
    encoding = _encoding_of(text)
    names, optional, no_empty = _choice_of(encoding, only, optional, no_empty)
    return _Text(encoding, text, Forms(forms), names, known, optional, no_empty).fill_in(variables, more)


@overload
def from_envsubst(text: str, *, only: Optional[Iterable[str]] = ..., optional: bool = ...) -> str: ...


@overload
def from_envsubst(text: _BytesLike, *, only: Optional[Iterable[_BytesLike]] = ..., optional: bool = ...) -> bytes: ...


def from_envsubst(text: Any, *, only: Optional[Iterable[Any]] = None, optional: bool = False) -> Any:
    """Returns a template for a text of envsubst. Its variables are $NAME and ${NAME}, with only those of these names;
    all else is text.

        >>> from_envsubst('$5 for ${name}')
        '\\\\$5 for ${name}'

    An unset variable is then an error, as it isn't in envsubst; with optional=True it expands to nothing.
    """
    encoding = _encoding_of(text)
    names = _names_of(encoding, only)
    template, _ = _foreign.template_for(
        encoding.encoded(text), lambda name: _foreign.is_shell_name(name) and (names is None or name in names),
        _flag('optional', optional))
    return encoding.decoded(bytearray(template))


@overload
def from_shell(text: str) -> str: ...


@overload
def from_shell(text: _BytesLike) -> bytes: ...


def from_shell(text: Any) -> Any:
    """Returns a template for a text with a shell's variables, as far as Docker Compose reads them in the same way:
    $name, ${name}, ${name:-default}, ${name:?message}, and $$ for a dollar. Expand it with no_empty=True. A missing
    variable is then placed in the template; fill_in_by_style, with Forms.SHELL or Forms.COMMON, places it in the text.

        >>> from_shell('$host:${port:-80}')
        '${host?}:${port:80}'

    Raises ShellError for the first form that has no template.
    """
    encoding = _encoding_of(text)
    return _from_shell(encoding, encoding.encoded(text))


@overload
def check(source: str) -> None: ...


@overload
def check(source: _BytesLike) -> None: ...


def check(source: Any) -> None:
    """Checks a source without its variables. Raises SubstError if it is no template."""
    encoding = _encoding_of(source)
    _check(encoding, encoding.encoded(source))


@overload
def variables(source: str) -> List[Variable[str]]: ...


@overload
def variables(source: _BytesLike) -> List[Variable[bytes]]: ...


def variables(source: Any) -> Any:
    """Returns the variables of a source, as Template.variables does. Raises SubstError if it is no template."""
    return _source_of(source).variables()


@overload
def missing(source: str, variables: Mapping[str, str] = ..., /, *, no_empty: bool = ...,
            **more: str) -> List[Variable[str]]: ...


@overload
def missing(source: _BytesLike, variables: Mapping[bytes, _BytesLike] = ..., /, *, no_empty: bool = ...,
            **more: _BytesLike) -> List[Variable[bytes]]: ...


def missing(source: Any, variables: Mapping[Any, Any] = _NONE, /, *, no_empty: bool = False, **more: Any) -> Any:
    """Returns the needed variables that are unset, as Template.missing. Raises SubstError if it is no template."""
    return _source_of(source, no_empty=no_empty).missing(variables, more)


# The cached sources by their type: at most this many, each of at most this length.
_kept: Dict[type, Dict[Any, _Source[Any]]] = {str: {}, bytes: {}}
_KEPT_SOURCES, _KEPT_LENGTH = 64, 4096


def _filled(source: Any, variables: Any, more: Mapping[str, Any]) -> Any:
    """Does what fill_in does without options."""
    if _in_c is not None and (not more or variables is _NONE and isinstance(source, str)):
        output = _in_c.fill_in(source, more or variables)
        if output is not None:
            return output
    return _source_of(source).fill_in(variables, more)


def _source_of(given: Any, only: Optional[Iterable[Any]] = None, optional: bool = False,
               no_empty: bool = False) -> _Source[Any]:
    kept = _kept.get(type(given)) if only is None and optional is False and no_empty is False else None
    if kept is None:
        encoding = _encoding_of(given)
        return _Source(encoding, given, *_choice_of(encoding, only, optional, no_empty))
    source = kept.get(given)
    if source is None:
        source = _Source(_encoding_of(given), given)
        if len(given) <= _KEPT_LENGTH:
            if len(kept) >= _KEPT_SOURCES:
                kept.clear()
            kept[given] = source
    return source


def _encoding_of(given: object, what: str = 'source') -> _Encoding[Any]:
    if isinstance(given, str):
        return _TEXT
    if isinstance(given, _BYTES.types):
        return _BYTES
    raise TypeError(f'the {what} must be str or bytes, not {type(given).__name__}')


def _choice_of(encoding: _Encoding[Any], only: Optional[Iterable[Any]], optional: bool,
               no_empty: bool) -> Tuple[Optional[FrozenSet[bytes]], bool, bool]:
    """Checks the types of these options. Returns them with the names encoded."""
    return _names_of(encoding, only), _flag('optional', optional), _flag('no_empty', no_empty)


def _names_of(encoding: _Encoding[Any], only: Optional[Iterable[Any]]) -> Optional[FrozenSet[bytes]]:
    """Returns the encoded names, or None if all names are variables."""
    if only is None:
        return None
    is_wrong = isinstance(only, (str, *_BYTES.types)) or not hasattr(only, '__iter__')
    names: List[Any] = [] if is_wrong else [*only]
    if is_wrong or not all(isinstance(name, encoding.types) for name in names):
        raise _wrong_option('only', f'names, each {encoding.kind.__name__} as the source is')
    return frozenset(map(encoding.encoded, names))


def _flag(name: str, given: bool) -> bool:
    if isinstance(given, bool):
        return given
    raise _wrong_option(name, 'a bool')


def _wrong_option(name: str, wanted: str) -> TypeError:
    return TypeError(f'{name} is an option, which must be {wanted}; pass a variable of this name in the mapping')


def _document_of(kind: str, text: Any, no_empty: bool) -> _Document[Any]:
    return _Document(_encoding_of(text, 'document'), kind, text, _flag('no_empty', no_empty))


__version__ = _version()
