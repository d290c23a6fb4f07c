"""What Tullweth says of a rule file: fates, sequences, states."""

from __future__ import annotations

import enum
import os
from dataclasses import dataclass
from typing import Any, Dict, Iterable, Iterator, List, Optional, Sequence, Tuple, Union

from . import library
from .refusals import Place, Refused
from .rule_file import Rule, RuleFile
from .text import nearest

#: A rule file, or the path of one or of its text form.
FileLike = Union[RuleFile, str, 'os.PathLike[str]']

#: A count over this one is reported as the next number.
MOST_STANDINGS = 4096

_BYTES_A_RULE = 5
_UNDECLARED = 255


class Fate(enum.IntEnum):
    """The fate of a rule; `text` says it in words."""

    KEPT = 0
    CONFLICTING = 1
    IMPLIED = 2
    SET_ASIDE = 3
    DROPPED = 4
    UNTESTED = 5

    @property
    def text(self) -> str:
        return _FATES[self]

    @property
    def remains(self) -> bool:
        """Whether the rule is among the finally kept ones."""
        return self in (Fate.KEPT, Fate.UNTESTED)


_FATES = {
    Fate.KEPT: 'kept',
    Fate.CONFLICTING: 'conflicting',
    Fate.IMPLIED: 'implied',
    Fate.SET_ASIDE: 'set aside',
    Fate.DROPPED: 'dropped, implied by the others',
    Fate.UNTESTED: 'kept untested',
}


class Value(enum.IntEnum):
    """The value of a rule after a run; `text` says it in words."""

    TEMPORARILY_SATISFIED = 0
    TEMPORARILY_VIOLATED = 1
    PERMANENTLY_SATISFIED = 2
    PERMANENTLY_VIOLATED = 3

    @property
    def text(self) -> str:
        return self.name.replace('_', ' ').lower()

    @property
    def satisfied(self) -> bool:
        """Whether the run as it is satisfies the rule."""
        return self in (Value.TEMPORARILY_SATISFIED, Value.PERMANENTLY_SATISFIED)


@dataclass(frozen=True)
class Verdict:
    """The fate of a rule and the two counts behind it."""

    number: int
    rule: Rule
    fate: Fate
    first_count: int
    second_count: int

    def as_json(self) -> Dict[str, Any]:
        """The verdict for programs."""
        fate = {'fate': self.fate.text, 'fate_number': int(self.fate), 'remains': self.fate.remains}
        counts = {'first_count': self.first_count, 'second_count': self.second_count}
        return {'number': self.number, **self.rule.as_json(), **fate, **counts}


@dataclass(frozen=True)
class ShownSequence:
    """A sequence by the names of its steps, and the joint standing after it in two numbers."""

    steps: Tuple[str, ...]
    standing: Tuple[int, int]

    def as_json(self) -> Dict[str, Any]:
        """The sequence for programs; a number of 64 bits is written in hex."""
        return {'steps': list(self.steps), 'standing': [f'0x{number:X}' for number in self.standing]}


@dataclass(frozen=True)
class Shown:
    """The sequences behind the fate of a rule; None for one that is absent."""

    number: int
    rule: Rule
    satisfying: Optional[ShownSequence]
    violating: Optional[ShownSequence]

    def as_json(self) -> Dict[str, Any]:
        """The answer for programs."""
        sequences = {'satisfying': self.satisfying, 'violating': self.violating}
        said = {which: sequence and sequence.as_json() for which, sequence in sequences.items()}
        return {'number': self.number, 'rule': str(self.rule), **said}


@dataclass(frozen=True)
class State:
    """The value of a rule after a run, and how many steps of the run were relevant to it."""

    number: int
    rule: Rule
    value: Value
    relevant: int

    def as_json(self) -> Dict[str, Any]:
        """The state for programs."""
        value = {'value': self.value.text, 'value_number': int(self.value), 'satisfied': self.value.satisfied}
        return {'number': self.number, 'rule': str(self.rule), **value, 'relevant': self.relevant}


def _file(file: FileLike) -> RuleFile:
    return file if isinstance(file, RuleFile) else RuleFile.read(file)


def prune(file: FileLike) -> List[Verdict]:
    """The fate of each rule, in file order."""
    opened = _file(file)
    number, verdicts = library.Areas().prune(opened.data)
    if number != 0:
        raise Refused(number)

    def verdict(place: int, rule: Rule) -> Verdict:
        said = verdicts[_BYTES_A_RULE * place:][:_BYTES_A_RULE]
        counts = int.from_bytes(said[1:3], 'big'), int.from_bytes(said[3:5], 'big')
        return Verdict(place + 1, rule, Fate(said[0]), *counts)

    return [verdict(place, rule) for place, rule in enumerate(opened.rules)]


def kept(file: FileLike) -> RuleFile:
    """The same steps with the finally kept rules alone, in file order."""
    opened = _file(file)
    return opened.with_rules(verdict.number for verdict in prune(opened) if verdict.fate.remains)


def _no_such_rule(file: RuleFile, number: int) -> Place:
    last = len(file.rules)
    has = 'the file has no rule' if last == 0 else 'the file has one rule' if last == 1 else f'the last one is {last}'
    return Place(detail=f'rule {number}; {has}')


def show(file: FileLike, rule: int) -> Shown:
    """The sequences behind the fate of the rule of this number, from 1."""
    opened = _file(file)
    return _shown(opened, rule, library.Areas())


def show_each(file: FileLike, rules: Iterable[int]) -> Iterator[Shown]:
    """The same for the rules of these numbers in turn, with areas that are allocated once."""
    opened = _file(file)
    areas = library.Areas()
    return (_shown(opened, number, areas) for number in rules)


def _shown(file: RuleFile, rule: int, areas: library.Areas) -> Shown:
    number, answer, sequences = areas.show(file.data, _rule_number(rule))
    if number != 0:
        raise Refused(number, _no_such_rule(file, rule))

    def sequence(which: int) -> Optional[ShownSequence]:
        present, _, first, second = answer[4 * which:][:4]
        steps = tuple(file.steps[step] for step in sequences[which])
        return ShownSequence(steps, (first, second)) if present else None

    return Shown(rule, file.rules[rule - 1], sequence(0), sequence(1))


def _rule_number(rule: int) -> int:
    """A rule number that fits the entry's 32 bits; one that does not is none of the file's."""
    return rule if 0 <= rule < 1 << 32 else 0


def state(file: FileLike, rule: int, run: Sequence[str]) -> State:
    """The state of the rule of this number, from 1, after a run of the steps of these names."""
    opened = _file(file)
    return _state(opened, rule, run, run_bytes(opened, run))


def states(file: FileLike, run: Sequence[str]) -> List[State]:
    """The same for each rule, in file order."""
    opened = _file(file)
    return list(states_of(opened, range(1, len(opened.rules) + 1), run))


def states_of(file: FileLike, rules: Iterable[int], run: Sequence[str]) -> Iterator[State]:
    """The same for the rules of these numbers in turn."""
    opened = _file(file)
    packed = run_bytes(opened, run)
    # A file without a rule has no state to ask the library for; such a run is refused all the same.
    if not opened.rules and _UNDECLARED in packed:
        raise Refused(15, _undeclared(opened, run, packed))
    return (_state(opened, number, run, packed) for number in rules)


def run_bytes(file: RuleFile, run: Sequence[str]) -> bytes:
    """A run as the library takes it: a byte a step, and one that no file declares for other names."""
    numbers = {name: number for number, name in enumerate(file.steps)}
    return bytes(numbers.get(name, _UNDECLARED) for name in run)


def _undeclared(file: RuleFile, run: Sequence[str], packed: bytes) -> Place:
    place = packed.find(_UNDECLARED)
    if place < 0:
        return Place()
    return Place(detail=f"'{run[place]}' at place {place + 1}{nearest(run[place], file.steps)}")


def _state(file: RuleFile, rule: int, run: Sequence[str], packed: bytes) -> State:
    number, value, relevant = library.state(file.data, packed, _rule_number(rule))
    if number != 0:
        place = _no_such_rule(file, rule) if number == 14 else _undeclared(file, run, packed)
        raise Refused(number, place)
    return State(rule, file.rules[rule - 1], Value(value), relevant)


class Watch:
    """A block that is watched: steps are told as they happen, and each says which rules it was
    relevant to. The whole run is asked about at each step, so that the answers are those of `state`."""

    def __init__(self, file: FileLike):
        self.file = _file(file)
        self.run: List[str] = []
        #: The state of each rule after the run so far.
        self.states: List[State] = states(self.file, [])

    def step(self, name: str) -> List[State]:
        """The states that this step changed: the value, or which steps are permitted. A step that is
        not declared is refused and is not part of the run."""
        run = [*self.run, name]
        after = states(self.file, run)
        changed = [new for old, new in zip(self.states, after) if new.relevant != old.relevant]
        self.run, self.states = run, after
        return changed
