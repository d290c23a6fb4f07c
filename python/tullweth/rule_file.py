"""Rule files as objects: always ones that the library accepts."""

from __future__ import annotations

import os
from dataclasses import dataclass, replace
from pathlib import Path
from typing import Any, Dict, Iterable, List, Optional, Sequence, Tuple, Union

from . import library, text
from .fields import RULE_TAG, STEP_TAG, WITHOUT_Y, RuleField, bits_of, field, fields_of, float_of, place_of
from .refusals import BadText, NotThere, Refused
from .templates import template_named, template_of

#: The number that says that a file is accepted and has no rule 0.
_NO_SUCH_RULE = 14


@dataclass(frozen=True)
class Rule:
    """A rule by the names of its steps. `y` is None where the template has none, `count` where it
    does not count. The weights are numbers of 32 bits."""

    template: str
    x: str
    y: Optional[str] = None
    count: Optional[int] = None
    support: float = 1.0
    confidence: float = 1.0
    interest: float = 1.0

    def __str__(self) -> str:
        """The rule as people write it, without its weights: Response(expose, arc)."""
        second = text.quoted(self.y) if self.y is not None else self.count
        arguments = [text.quoted(self.x)] + ([] if second is None else [str(second)])
        return f'{self.template}({", ".join(arguments)})'

    @property
    def weights(self) -> Tuple[float, float, float]:
        """Support, confidence and interest."""
        return self.support, self.confidence, self.interest

    def as_json(self) -> Dict[str, Any]:
        """The rule for programs."""
        second = {'y': self.y, 'count': self.count}
        return {
            'rule': str(self), 'template': self.template, 'x': self.x,
            **{key: value for key, value in second.items() if value is not None},
            'support': self.support, 'confidence': self.confidence, 'interest': self.interest,
        }

    def _field(self, steps: Sequence[str]) -> RuleField:
        template = template_named(self.template)
        number = {name: place for place, name in enumerate(steps)}
        y = number[self.y] if self.y is not None else self.count if self.count is not None else WITHOUT_Y
        support, confidence, interest = (bits_of(weight) for weight in self.weights)
        return RuleField(template.number, number[self.x], y, (support, confidence, interest))


def _rule_of(content: RuleField, steps: Sequence[str]) -> Rule:
    """A rule of an accepted file."""
    template = template_of(content.template)
    assert template is not None
    y = steps[content.y] if template.has_y else None
    count = content.y if template.counts else None
    support, confidence, interest = (float_of(bits) for bits in content.weights)
    return Rule(template.name, steps[content.x], y, count, support, confidence, interest)


class RuleFile:
    """A rule file that the library accepts.

    RuleFile(data) takes the bytes of a rule file; `RuleFile.read` takes a path, `RuleFile.parse` a
    text, `RuleFile.of` steps and rules. Each raises Refused where the library refuses the file.
    """

    def __init__(self, data: bytes, *, _lines: Optional[Sequence[int]] = None, _is_text: bool = False):
        self.data = bytes(data)
        #: Whether it was read from the text form.
        self.is_text = _is_text
        _check(self.data, _lines)
        fields = [(tag, content or b'') for tag, content in fields_of(self.data)]
        #: The names of the steps, by number from 0.
        self.steps: Tuple[str, ...] = tuple(content.decode('ascii') for tag, content in fields if tag == STEP_TAG)
        self._rule_fields = tuple(RuleField.unpacked(content) for tag, content in fields if tag == RULE_TAG)
        #: The rules; rule n is rules[n - 1].
        self.rules: Tuple[Rule, ...] = tuple(_rule_of(content, self.steps) for content in self._rule_fields)

    def __eq__(self, other: object) -> bool:
        return isinstance(other, RuleFile) and self.data == other.data

    def __hash__(self) -> int:
        return hash(self.data)

    def __repr__(self) -> str:
        return f'<RuleFile: {len(self.steps)} steps, {len(self.rules)} rules>'

    @staticmethod
    def read(path: Union[str, 'os.PathLike[str]']) -> RuleFile:
        """The file at a path, which may be a rule file or the text form of one: its content tells."""
        return RuleFile.from_content(Path(path).read_bytes())

    @staticmethod
    def from_content(content: bytes) -> RuleFile:
        """The rule file, or that of the text, that these bytes are."""
        if is_rule_file(content):
            return RuleFile(content)
        packed = text.packed_text(content)
        return RuleFile(packed.data, _lines=packed.lines, _is_text=True)

    @staticmethod
    def parse(form: str) -> RuleFile:
        """The rule file of which this is the text form."""
        packed = text.packed_text(text.encoded(form))
        return RuleFile(packed.data, _lines=packed.lines, _is_text=True)

    @staticmethod
    def of(steps: Iterable[str], rules: Iterable[Rule]) -> RuleFile:
        """The rule file of these steps and rules."""
        names = list(steps)
        written = [_step_field(name) for name in names]
        written += [field(RULE_TAG, _field_of(rule, names).packed()) for rule in rules]
        return RuleFile(b''.join(written))

    def text(self) -> str:
        """The text form, as it is always written."""
        return text.text_of(self.steps, self._rule_fields)

    def with_rules(self, numbers: Iterable[int]) -> RuleFile:
        """The same steps and the rules of these numbers, in this order."""
        fields = [self._rule_fields[number - 1] for number in numbers]
        written = [_step_field(name) for name in self.steps]
        written += [field(RULE_TAG, content.packed()) for content in fields]
        return RuleFile(b''.join(written), _is_text=self.is_text)

    def numbers_of(self, words: str) -> List[int]:
        """The numbers of the rules that are written so, in any spelling, as 'Response(expose, arc)'."""
        wanted = self._read_rule(words)
        same = [number for number, rule in enumerate(self._rule_fields, start=1)
                if (rule.template, rule.x, rule.y) == (wanted.template, wanted.x, wanted.y)]
        if not same:
            raise NotThere(f"no rule of the file is {_rule_of(wanted, self.steps)}")
        return same

    def _read_rule(self, words: str) -> RuleField:
        """The rule that these words are, with any weights."""
        one_line = ' '.join(words.split())
        form = ''.join(f'step {text.quoted(name)}\n' for name in self.steps) + f'rule {one_line} 0 0 0\n'
        neither = f"'{words}' is neither the number of a rule nor a rule"
        if not one_line:
            raise NotThere(neither)
        try:
            return RuleFile.parse(form)._rule_fields[0]
        except BadText as bad:
            # The weights were added here and are not the caller's to write.
            reason = bad.reason.replace('write: rule ', 'write: ').replace(' SUPPORT CONFIDENCE INTEREST', '')
            raise NotThere(f'{neither}: {reason}') from None
        except Refused as refused:
            # What is said of the rule, without its number in the file that was made here.
            raise NotThere(f'{neither}: {refused.meaning}: {refused.place.detail.partition(", ")[2]}') from None

    def as_json(self) -> Dict[str, Any]:
        """Steps and rules for programs."""
        rules = [{'number': number, **rule.as_json()} for number, rule in enumerate(self.rules, start=1)]
        return {'steps': list(self.steps), 'rules': rules}


def _step_field(name: str) -> bytes:
    return field(STEP_TAG, text.encoded(name)[:0xFFFF])


def _field_of(rule: Rule, steps: Sequence[str]) -> RuleField:
    """The field of a rule; its limits are left to the library, but what no field can hold is said here."""
    try:
        template = template_named(rule.template)
        if (rule.y is not None, rule.count is not None) != (template.has_y, template.counts):
            raise BadText(f'{rule}: {rule.template} takes {" and ".join(template.takes)}')
        if rule.count is not None and not 0 <= rule.count <= 0xFF:
            raise BadText(f'{rule}: the count is not from 1 to 14')
        return rule._field(steps)
    except KeyError as missing:
        raise BadText(f'{rule}: {missing} is neither a template nor a declared step') from None
    except OverflowError:
        raise BadText(f'{rule}: a weight is not from 0 to 1') from None


def _check(data: bytes, lines: Optional[Sequence[int]]) -> None:
    """Raises Refused, with its place, where the library refuses the file."""
    number = library.state(data, b'', 0)[0]
    if number == _NO_SUCH_RULE:
        return
    place = place_of(data, number)
    if lines is not None and place.field is not None:
        place = replace(place, line=lines[place.field - 1])
    raise Refused(number, place)


def is_rule_file(content: bytes) -> bool:
    """Whether these bytes are a rule file and no text: the length in its first field has a zero
    byte, and a text has none."""
    text.check_encoding(content)
    return b'\0' in content[:3]
