"""The fields of a rule file: written, read, and looked at for the place of a fault.

docs/FORMAT.md, "Rule file" and "Refused inputs". Whether a file is accepted, and by which number it
is refused, is the library's to say: the reader here only finds where that is, for the message.
"""

from __future__ import annotations

import struct
from dataclasses import dataclass
from typing import Iterator, List, Optional, Tuple

from .refusals import Place
from .templates import Template, template_of

STEP_TAG = 0x53
RULE_TAG = 0x52
RULE_BYTES = 15
WITHOUT_Y = 0xFF
MOST_STEPS = 24
MOST_RULES = 32
LONGEST_NAME = 16
MOST_COUNT = 14
#: The bits of 1.0.
LARGEST_WEIGHT = 0x3F800000
WEIGHT_NAMES = ('support', 'confidence', 'interest')


@dataclass(frozen=True)
class RuleField:
    """The content of a rule field: three bytes, and the bits of the three weights."""

    template: int
    x: int
    y: int
    weights: Tuple[int, int, int]

    def packed(self) -> bytes:
        """The 15 bytes."""
        return struct.pack('>BBB3I', self.template, self.x, self.y, *self.weights)

    @staticmethod
    def unpacked(content: bytes) -> RuleField:
        """The same from 15 bytes."""
        template, x, y, *weights = struct.unpack('>BBB3I', content)
        return RuleField(template, x, y, (weights[0], weights[1], weights[2]))


def field(tag: int, content: bytes) -> bytes:
    """One field: tag, length, content."""
    return struct.pack('>BH', tag, len(content)) + content


def float_of(bits: int) -> float:
    """The number that these 32 bits are."""
    return float(struct.unpack('>f', struct.pack('>I', bits))[0])


def bits_of(weight: float) -> int:
    """The 32 bits of a number; OverflowError where it is too large for them."""
    return int(struct.unpack('>I', struct.pack('>f', weight))[0])


def fields_of(data: bytes) -> Iterator[Tuple[int, Optional[bytes]]]:
    """The tag and content of each field; the content is None where the file ends inside it, which
    is then the last one."""
    at = 0
    while at < len(data):
        head = data[at:at + 3]
        end = at + 3 + int.from_bytes(head[1:], 'big') if len(head) == 3 else len(data) + 1
        yield head[0], data[at + 3:end] if end <= len(data) else None
        at = end


class _Reader:
    """Finds the first fault of a file: its number and what is wrong."""

    def __init__(self) -> None:
        self.names: List[bytes] = []
        self.rules = 0

    def fault(self, tag: int, content: Optional[bytes]) -> Optional[Tuple[int, str]]:
        """The fault of the next field, if it has one, in the order of testing."""
        if content is None:
            return 2, f'the file ends inside {self._called(tag)}'
        if tag == STEP_TAG:
            return self._step_fault(content)
        if tag == RULE_TAG:
            return self._rule_fault(content)
        return 3, f'its tag is hex {tag:02X}, and only 53 (a step) and 52 (a rule) are known'

    def _called(self, tag: int) -> str:
        names = {STEP_TAG: f'step {len(self.names)}', RULE_TAG: f'rule {self.rules + 1}'}
        return names.get(tag, f'a field of tag hex {tag:02X}')

    def _step_fault(self, name: bytes) -> Optional[Tuple[int, str]]:
        called = shown_name(name)
        if self.rules:
            return 4, f'step {called} stands after rule {self.rules}'
        if len(self.names) == MOST_STEPS:
            return 5, f'step {called} is the 25th'
        if not 1 <= len(name) <= LONGEST_NAME:
            return 6, f'step {called} has {len(name)} bytes'
        if not all(0x21 <= byte <= 0x7E for byte in name):
            return 6, f'step {called} has a character that is not visible ASCII'
        if name in self.names:
            return 7, f'{called} is step {self.names.index(name)} already'
        self.names.append(name)
        return None

    def _rule_fault(self, content: bytes) -> Optional[Tuple[int, str]]:
        number = self.rules + 1
        if self.rules == MOST_RULES:
            return 8, 'this is the 33rd'
        if len(content) != RULE_BYTES:
            return 9, f'rule {number} has {len(content)}'
        rule = RuleField.unpacked(content)
        template = template_of(rule.template)
        if template is None:
            return 10, f'rule {number} has template {rule.template}'
        fault = self._argument_fault(rule, template) or _weight_fault(rule)
        if fault:
            return fault[0], f'rule {number}, {template.name}: {fault[1]}'
        self.rules += 1
        return None

    def _argument_fault(self, rule: RuleField, template: Template) -> Optional[Tuple[int, str]]:
        declared = len(self.names)
        if template.counts and not 1 <= rule.y <= MOST_COUNT:
            return 17, f'count {rule.y}'
        if rule.x >= declared:
            return 11, f'x is step {rule.x}, and {declared} are declared'
        if template.has_y and rule.y >= declared:
            return 11, f'y is step {rule.y}, and {declared} are declared'
        if template.has_y and rule.x == rule.y:
            return 11, f'x and y are both {shown_name(self.names[rule.x])}'
        if not template.has_y and not template.counts and rule.y != WITHOUT_Y:
            return 11, f'the template has no y, and its byte is hex {rule.y:02X}, not FF'
        return None


def _weight_fault(rule: RuleField) -> Optional[Tuple[int, str]]:
    for name, bits in zip(WEIGHT_NAMES, rule.weights):
        if bits > LARGEST_WEIGHT:
            return 12, f'{name} {float_of(bits):.6g} (hex {bits:08X})'
    return None


def shown_name(name: bytes) -> str:
    """The bytes of a name for a message."""
    text = name[:40].decode('utf-8', 'backslashreplace')
    kept = ''.join(c if c.isprintable() else c.encode('unicode_escape').decode() for c in text)
    return f"'{kept}'" if len(name) <= 40 else f"'{kept}..'"


def first_fault(data: bytes) -> Tuple[int, Place]:
    """The number and the place of the first fault of a file, as this reader sees it; 0 if none."""
    reader = _Reader()
    for number, (tag, content) in enumerate(fields_of(data), start=1):
        fault = reader.fault(tag, content)
        if fault:
            return fault[0], Place(field=number, detail=fault[1])
    return (0, Place()) if reader.names else (13, Place())


def place_of(data: bytes, number: int) -> Place:
    """Where a file that the library refuses by this number has the fault. Where the reader here
    finds another number, no place is said."""
    found, place = first_fault(data)
    return place if found == number else Place()
