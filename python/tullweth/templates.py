"""The templates of Declare that Tullweth knows, and the ways in which their names are spelled.

docs/FORMAT.md, "Templates", says what each means; "Text form" lists the spellings.
"""

from __future__ import annotations

import difflib
import re
from dataclasses import dataclass
from typing import Dict, Optional, Tuple


@dataclass(frozen=True)
class Template:
    """A template: its number in a rule file, its name and what it takes."""

    number: int
    name: str
    #: What stands after the name: ('X',), ('X', 'Y') or ('X', 'COUNT').
    takes: Tuple[str, ...]

    @property
    def counts(self) -> bool:
        """Whether it counts how often x occurs; the byte of y is then that count."""
        return self.takes[-1] == 'COUNT'

    @property
    def has_y(self) -> bool:
        """Whether it speaks of a second step."""
        return self.takes[-1] == 'Y'


def _templates() -> Tuple[Template, ...]:
    one, two, counting = ('X',), ('X', 'Y'), ('X', 'COUNT')
    names = [
        (one, 'Participation AtMostOne Init End'),
        (two, 'RespondedExistence Response AlternateResponse ChainResponse'),
        (two, 'Precedence AlternatePrecedence ChainPrecedence'),
        (two, 'CoExistence Succession AlternateSuccession ChainSuccession'),
        (two, 'NotChainSuccession NotSuccession NotCoExistence'),
        (counting, 'AtLeast AtMost Exactly'),
        (two, 'Choice ExclusiveChoice'),
    ]
    pairs = [(takes, name) for takes, some in names for name in some.split()]
    return tuple(Template(number, name, takes) for number, (takes, name) in enumerate(pairs, start=1))


#: All templates by number, from 1.
TEMPLATES: Tuple[Template, ...] = _templates()

_BY_NAME: Dict[str, Template] = {template.name: template for template in TEMPLATES}

#: Other names of templates, spelled as `_key` spells them, with the count that the name says.
_SYNONYMS: Dict[str, Tuple[str, Optional[int]]] = {
    'existence': ('Participation', None),
    'existence1': ('Participation', None),
    'atleastone': ('Participation', None),
    'uniqueness': ('AtMostOne', None),
    'absence2': ('AtMostOne', None),
    'exactlyone': ('Exactly', 1),
    'notresponse': ('NotSuccession', None),
    'notprecedence': ('NotSuccession', None),
    'notchainresponse': ('NotChainSuccession', None),
    'notchainprecedence': ('NotChainSuccession', None),
    'notrespondedexistence': ('NotCoExistence', None),
}

#: Names that end in a number: the template, and what is added to the number to get the count.
_COUNTED: Dict[str, Tuple[str, int]] = {
    'atleast': ('AtLeast', 0),
    'existence': ('AtLeast', 0),
    'atmost': ('AtMost', 0),
    'absence': ('AtMost', -1),
    'exactly': ('Exactly', 0),
}

#: That a step never occurs.
_NEVER = re.compile(r'absence[01]?')


@dataclass(frozen=True)
class Spelled:
    """What a name stands for: a template, and the count if the name says one."""

    template: Template
    count: Optional[int] = None

    @property
    def takes(self) -> Tuple[str, ...]:
        """What still has to be given."""
        return self.template.takes if self.count is None else self.template.takes[:1]


def _key(name: str) -> str:
    """A name without what does not matter: case, spaces, hyphens and underscores."""
    return re.sub(r'[\s_-]+', '', name).lower()


_BY_KEY: Dict[str, Spelled] = {_key(template.name): Spelled(template) for template in TEMPLATES}
_BY_KEY.update({key: Spelled(_BY_NAME[name], count) for key, (name, count) in _SYNONYMS.items()})


def template_of(number: int) -> Optional[Template]:
    """The template of this number, if there is one."""
    return TEMPLATES[number - 1] if 1 <= number <= len(TEMPLATES) else None


def template_named(name: str) -> Template:
    """The template of this name, spelled as in TEMPLATES."""
    return _BY_NAME[name]


def spelled(name: str) -> Optional[Spelled]:
    """What a name stands for, in any of its usual spellings; None if it stands for no template."""
    key = _key(name)
    if key in _BY_KEY:
        return _BY_KEY[key]
    counted = re.fullmatch(r'([a-z]+)([0-9]{1,3})', key, flags=re.ASCII)
    if counted is None or counted[1] not in _COUNTED or _NEVER.fullmatch(key):
        return None
    known, added = _COUNTED[counted[1]]
    return Spelled(_BY_NAME[known], int(counted[2]) + added)


def said(word: str) -> str:
    """A word in a message: in quotes, and cut where it is long."""
    return f"'{word}'" if len(word) <= 60 else f"'{word[:60]}..'"


def why_unknown(name: str) -> str:
    """What to say of a name that stands for no template."""
    key = _key(name)
    if _NEVER.fullmatch(key):
        return f'{said(name)} (never) has no template here: leave the step undeclared where it is not to occur'
    unknown = f'{said(name)} is no template'
    near = difflib.get_close_matches(key[:40], list(_BY_KEY), n=1, cutoff=0)
    return f'{unknown}; the nearest is {_BY_KEY[near[0]].template.name}' if near else unknown
