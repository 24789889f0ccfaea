"""The shared library, the declarations of subst.h, and the module in C. Pointers are passed as addresses, but not those
to sources and cells."""
from __future__ import annotations

import ctypes
import importlib
import os
from array import array
from typing import Any, Dict, Iterable, List, Optional

DONE, REFUSED, OUT_OF_MEMORY, ROOM_TOO_SMALL, NOT_UTF8, NOT_CONFIRMED, TOO_LONG = 0, 1, 4, 5, 6, 8, 12
# The kinds of fault of a source that is no document, and of a text with a form that is refused.
INVALID_DOCUMENT, REFUSED_FORM = 6, 7
# The choices of names of a style.
ALL_NAMES, ONLY_NAMES, KNOWN_NAMES = 0, 1, 2

_ADDRESS, _SIZE = ctypes.c_void_p, ctypes.c_size_t
_SOURCE: List[Any] = [ctypes.c_char_p, _SIZE]
_ITEMS: List[Any] = [_ADDRESS, _SIZE]
_FILL_IN = [*_SOURCE, *_ITEMS, *_ITEMS, _ADDRESS, _ADDRESS]
_EACH = [*_SOURCE, *_ITEMS, *_ITEMS, *_ITEMS, _ADDRESS, _ADDRESS, _ADDRESS]
_SAY = [*_SOURCE, *_ITEMS, *_ITEMS, _ADDRESS]
_SAY_ERROR = [*_SOURCE, _ADDRESS, *_ITEMS, _ADDRESS]
# The bytes of a cell of a template, whose cells are passed as a source is.
CELL = 16

ARGUMENTS: Dict[str, List[Any]] = {
    'subst_bytes_into': _FILL_IN,
    'subst_bytes_each': _EACH,
    'subst_template_new': [*_SOURCE, ctypes.c_uint32, _ADDRESS, _ADDRESS, _ADDRESS],
    'subst_parse': [*_SOURCE, ctypes.c_uint32, *_ITEMS, _ADDRESS, _ADDRESS],
    'subst_template_variables': _SOURCE,
    'subst_template_variable': [*_SOURCE, *_SOURCE, _SIZE, _ADDRESS],
    'subst_expand': [*_SOURCE, *_FILL_IN],
    'subst_expand_each': [*_SOURCE, *_EACH],
    'subst_json': _FILL_IN,
    'subst_toml': _FILL_IN,
    'subst_yaml': _FILL_IN,
    'subst_check': [*_SOURCE, _ADDRESS],
    'subst_variables': [*_SOURCE, *_ITEMS, _ADDRESS, _ADDRESS],
    'subst_missing': _FILL_IN,
    'subst_error_text': _SAY_ERROR,
    'subst_error_highlighting': _SAY_ERROR,
    'subst_json_fault_text': _SAY,
    'subst_toml_fault_text': _SAY,
    'subst_yaml_fault_text': _SAY,
    'subst_from_shell': [*_SOURCE, *_ITEMS, _ADDRESS, _ADDRESS, _ADDRESS],
    'subst_shell_form_text': [ctypes.c_uint32, *_ITEMS, _ADDRESS],
    'subst_bytes_by_style': [*_SOURCE, _ADDRESS, *_ITEMS, *_ITEMS, _ADDRESS, _ADDRESS],
    'subst_place': [*_SOURCE, _SIZE, _ADDRESS, _ADDRESS],
    'subst_version': [],
}

FILE = 'libsubst.so.0'


def _path() -> str:
    """Returns the path of the library, or its name alone, which the loader searches."""
    folder = os.path.dirname(os.path.realpath(__file__))
    places = [os.path.join(folder, FILE), os.path.join(folder, '..', '..', '..', FILE)]
    return os.environ.get('SUBST_LIBRARY', '') or next((place for place in places if os.path.exists(place)), FILE)


def _loaded(path: str) -> ctypes.CDLL:
    """Loads the library, and declares its calls. Raises ImportError if that fails, or if a call is missing."""
    try:
        found = ctypes.CDLL(path)
    except OSError as error:
        raise ImportError(f'the library of subst is not loaded: {error} (SUBST_LIBRARY can name it)') from error
    for name, arguments in ARGUMENTS.items():
        if not hasattr(found, name):
            raise ImportError(f'{path} is not the library of subst: it has no {name}')
        call = getattr(found, name)
        call.argtypes, call.restype = arguments, ctypes.c_uint32
    found.subst_template_variables.restype = _SIZE
    return found


def addresses(calls: Iterable[Any]) -> bytes:
    """Returns the addresses of functions, as the module in C takes them."""
    return array('Q', [ctypes.cast(call, _ADDRESS).value or 0 for call in calls]).tobytes()


def _module(found: ctypes.CDLL) -> Optional[Any]:
    """Returns the module in C, which calls this library too, or None if the package has none, or if the environment
    variable SUBST_FAST is 0."""
    if os.environ.get('SUBST_FAST') == '0':
        return None
    try:
        module = importlib.import_module('._fast', __package__)
    except ImportError:
        return None
    calls = found.subst_template_new, found.subst_template_variables, found.subst_template_variable, found.subst_expand
    module.bind(addresses(calls))
    return module


def version() -> str:
    """Returns the version of the library, as 0.1.2 for its number 102."""
    number: int = library.subst_version()
    return f'{number // 10000}.{number // 100 % 100}.{number % 100}'


library = _loaded(_path())
in_c = _module(library)
