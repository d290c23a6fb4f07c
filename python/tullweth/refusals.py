"""What the library refuses and what cannot be read at all, as exceptions that say the place."""

from __future__ import annotations

from dataclasses import dataclass, replace
from typing import Any, Dict, Optional

#: The refusals by number, in the words of include/tullweth_text.h.
MEANINGS: Dict[int, str] = {
    1: 'an area lent is too short',
    2: 'the file ends inside a field',
    3: 'a field is neither a step nor a rule',
    4: 'a step comes after a rule',
    5: 'there are more than 24 steps',
    6: 'a name is not of 1 to 16 visible characters',
    7: 'two steps have one name',
    8: 'there are more than 32 rules',
    9: 'a rule is not 15 bytes long',
    10: 'a rule has an unknown template',
    11: 'the steps of a rule do not fit its template',
    12: 'a weight is not from 0 to 1',
    13: 'there is no step',
    14: 'there is no such rule',
    15: 'a step of the run is not declared',
    16: 'a watch entry has a standing that its template lacks',
    17: 'the count of a rule is not from 1 to 14',
}


class TullwethError(ValueError):
    """What was given cannot be worked with; the message says what and where."""

    def as_json(self) -> Dict[str, Any]:
        """The same for programs."""
        return {'message': str(self)}


@dataclass(frozen=True)
class Place:
    """Where a fault is: the number of the field from 1, the line of the text if there is one, and
    what is wrong there. It is found by a reader in Python and only words the message."""

    field: Optional[int] = None
    line: Optional[int] = None
    detail: str = ''


class Refused(TullwethError):
    """The library refuses the call by this number."""

    def __init__(self, number: int, place: Optional[Place] = None):
        self.number = number
        self.meaning = MEANINGS.get(number, 'unknown to this module')
        self.place = place or Place()
        super().__init__(self._message())

    def at_line(self, line: int) -> Refused:
        """The same, found at a line of the input."""
        return Refused(self.number, replace(self.place, line=line))

    def _message(self) -> str:
        place = self.place
        parts = [f'refused {self.number}: {self.meaning}']
        if place.line is not None:
            parts.insert(0, f'line {place.line}')
        elif place.field is not None:
            parts.insert(0, f'field {place.field}')
        if place.detail:
            parts.append(place.detail)
        if place.line is not None and place.field is not None:
            parts[-1] += f' (field {place.field})'
        return ': '.join(parts)

    def as_json(self) -> Dict[str, Any]:
        place = self.place
        said = {'message': str(self), 'refused': self.number, 'meaning': self.meaning}
        found = {'field': place.field, 'line': place.line, 'detail': place.detail or None}
        return {**said, **{key: value for key, value in found.items() if value is not None}}


class BadText(TullwethError):
    """A line of a text, or a part of a model, that cannot be read."""

    def __init__(self, reason: str, line: Optional[int] = None):
        self.reason = reason
        self.line = line
        super().__init__(reason if line is None else f'line {line}: {reason}')

    def as_json(self) -> Dict[str, Any]:
        line = {} if self.line is None else {'line': self.line}
        return {'message': str(self), **line}


class NotThere(TullwethError):
    """What was asked for by a name is not in the file."""


class LibraryMissing(RuntimeError):
    """The shared library is not built or not installed."""
