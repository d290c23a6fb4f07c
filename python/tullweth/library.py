"""The C entries of the proved library, through ctypes.

The areas that an entry is lent are allocated here, and are private to the object or the call that
allocates them; the library itself has no state. While an entry works, Python's other threads run.
"""

from __future__ import annotations

import ctypes
import importlib
import os
import threading
from pathlib import Path
from typing import Any, List, Optional, Tuple

from .refusals import LibraryMissing

#: The least lengths of the areas, as include/tullweth.h has them.
FOUND_NUMBERS = 8192
LINK_NUMBERS = 16384
VERDICT_BYTES = 160
SEQUENCE_BYTES = 4095
ANSWER_NUMBERS = 8
STATE_NUMBERS = 2

_BYTES = [ctypes.c_void_p, ctypes.c_size_t]
_ARGUMENTS = {
    'tullweth_prune': _BYTES * 4,
    'tullweth_show': _BYTES + [ctypes.c_uint32] + _BYTES * 5,
    'tullweth_state': _BYTES * 2 + [ctypes.c_uint32] + _BYTES,
}

_loaded: Optional[ctypes.CDLL] = None
_loading = threading.Lock()


def _place() -> Path:
    """Where the library is: where TULLWETH_LIBRARY says, or else where it was installed with this
    module, or in the target/ of the checkout that this module is part of."""
    named = os.environ.get('TULLWETH_LIBRARY')
    if named:
        return Path(named).absolute()
    here = Path(__file__).resolve().parent
    try:
        # Written by make install.
        place = importlib.import_module('._place', __package__)
    except ImportError:
        return here.parent.parent / 'target' / 'lib' / 'libtullweth.so'
    return here / str(place.LIBRARY)


def _load() -> ctypes.CDLL:
    place = _place()
    try:
        if not place.exists():
            raise LibraryMissing(f"the library is not at {place}: run 'make' in the checkout, or install it again")
        library = ctypes.CDLL(str(place))
        for name, arguments in _ARGUMENTS.items():
            entry = getattr(library, name)
            entry.argtypes = arguments
            entry.restype = ctypes.c_uint32
    except (OSError, AttributeError) as reason:
        raise LibraryMissing(f'the library at {place} cannot be used: {reason}') from reason
    return library


def _library() -> ctypes.CDLL:
    """The library, loaded once."""
    global _loaded
    with _loading:
        if _loaded is None:
            _loaded = _load()
        return _loaded


def _lent(*areas: 'ctypes.Array[Any]') -> List[object]:
    """Areas as the entries take them, each with its length."""
    return [part for area in areas for part in (area, len(area))]


class Areas:
    """The work areas of pruning and showing, allocated once. They serve one call at a time."""

    def __init__(self) -> None:
        self._found = (ctypes.c_uint64 * FOUND_NUMBERS)()
        self._links = (ctypes.c_uint16 * LINK_NUMBERS)()
        self._verdicts = (ctypes.c_uint8 * VERDICT_BYTES)()
        self._sequences = [(ctypes.c_uint8 * SEQUENCE_BYTES)() for _ in range(2)]
        self._answer = (ctypes.c_uint64 * ANSWER_NUMBERS)()

    def prune(self, data: bytes) -> Tuple[int, bytes]:
        """The number that tullweth_prune returns, and the verdict bytes."""
        lent = _lent(self._found, self._links, self._verdicts)
        number = _library().tullweth_prune(data, len(data), *lent)
        return number, bytes(self._verdicts)

    def show(self, data: bytes, rule: int) -> Tuple[int, List[int], List[bytes]]:
        """The number that tullweth_show returns, the eight numbers of its answer and both sequences."""
        lent = _lent(self._found, self._links, *self._sequences, self._answer)
        number = _library().tullweth_show(data, len(data), rule, *lent)
        if number != 0:
            return number, [0] * ANSWER_NUMBERS, [b'', b'']
        answer = list(self._answer)
        return number, answer, [bytes(area[:answer[at]]) for area, at in zip(self._sequences, (1, 5))]


def state(data: bytes, run: bytes, rule: int) -> Tuple[int, int, int]:
    """The number that tullweth_state returns, the value and the count of relevant steps."""
    answer = (ctypes.c_uint64 * STATE_NUMBERS)()
    number = _library().tullweth_state(data, len(data), run, len(run), rule, *_lent(answer))
    return number, answer[0], answer[1]
