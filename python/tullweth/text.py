"""The text form of a rule file: read in its usual spellings, written in one.

docs/FORMAT.md, "Text form".
"""

from __future__ import annotations

import difflib
import re
from dataclasses import dataclass
from typing import Container, Dict, Iterable, List, Sequence, Tuple

from .fields import RULE_TAG, STEP_TAG, WITHOUT_Y, RuleField, bits_of, field, float_of
from .refusals import BadText
from .templates import Spelled, said, spelled, template_of, why_unknown

#: What stands between words, and cannot be in a name without quotes.
_MARKS = '()[]{},'
_TOKEN = re.compile(r'''
    [^\S\n]*(?:
      "(?P<quoted>(?:[^"\\]|\\.)*)"
    | (?P<mark>[()\[\]{},])
    | (?P<comment>\#.*)
    | (?P<word>[^\s()\[\]{},"]+)
    | (?P<open>")
    )''', re.VERBOSE)
_DECIMAL = re.compile(r'[+-]?([0-9]+\.?[0-9]*|\.[0-9]+)([eE][+-]?[0-9]+)?')
_CLOSING = {'(': ')', '[': ']'}


@dataclass(frozen=True)
class Token:
    """A word of a line, or a mark. A word in quotes may have marks and spaces in it."""

    text: str
    is_mark: bool = False
    is_quoted: bool = False


@dataclass(frozen=True)
class PackedText:
    """A rule file made of a text, with the line of each field."""

    data: bytes
    lines: Tuple[int, ...]


# ---- reading


def tokens_of(line: str) -> List[Token]:
    """The words and marks of a line, without its comment."""
    tokens: List[Token] = []
    at, end = 0, len(line.rstrip())
    while at < end:
        found = _TOKEN.match(line, at)
        if found is None or found['open'] is not None:
            raise BadText('a name in quotes does not end: write "NAME"')
        if found['comment'] is not None:
            break
        if found['quoted'] is not None:
            tokens.append(Token(re.sub(r'\\(.)', r'\1', found['quoted']), is_quoted=True))
        elif found['mark'] is not None:
            tokens.append(Token(found['mark'], is_mark=True))
        else:
            tokens.append(Token(found['word']))
        at = found.end()
    return tokens


def encoded(text: str) -> bytes:
    """The bytes of a text; a character that stands for a byte is that byte again."""
    try:
        return text.encode('utf-8', 'surrogateescape')
    except UnicodeEncodeError:
        return text.encode('utf-8', 'surrogatepass')


def nearest(name: str, names: Iterable[str]) -> str:
    """What to add to a message about a name that is not known."""
    near = difflib.get_close_matches(name[:40], list(names), n=1, cutoff=0.5)
    return f'; the nearest is {near[0]}' if near else ''


def weight_bits(word: str) -> int:
    """The 32 bits of a weight."""
    if re.fullmatch(r'0[xX][0-9A-Fa-f]{8}', word):
        return int(word, 16)
    if not _DECIMAL.fullmatch(word):
        raise BadText(f'{said(word)} is no weight: write a decimal number from 0 to 1, or 0x and eight hex digits')
    try:
        return bits_of(float(word))
    except OverflowError:
        raise BadText(f'the weight {said(word)} is not from 0 to 1') from None


def _count(word: str) -> int:
    if not re.fullmatch(r'[0-9]{1,3}', word) or int(word) > 0xFF:
        raise BadText(f'{said(word)} is no count of steps: write a whole number from 1 to 14')
    return int(word)


class _Text:
    """The steps declared so far, and the fields of the lines."""

    def __init__(self) -> None:
        self.steps: Dict[str, int] = {}
        self.declared = 0

    def field_of(self, tokens: List[Token]) -> bytes:
        """The field of a line that is not empty."""
        first, rest = tokens[0], tokens[1:]
        if first.text.lower() == 'step' and not first.is_quoted:
            return self._step(rest)
        if first.text.lower() == 'rule' and not first.is_quoted:
            return self._rule(rest)
        raise BadText(f"a line begins with 'step' or 'rule', not with {said(first.text)}")

    def _step(self, tokens: List[Token]) -> bytes:
        marks = [token.text for token in tokens if token.is_mark]
        if marks:
            raise BadText(f"a name with '{marks[0]}' is written in quotes: step \"NAME\"")
        if len(tokens) != 1:
            raise BadText('a step has one name: step NAME')
        name = tokens[0].text
        packed = encoded(name)
        if len(packed) > 0xFFFF:
            raise BadText('the name is longer than 16 characters')
        # Of two equal names the first keeps its number; the library refuses the file.
        self.steps.setdefault(name, self.declared)
        self.declared += 1
        return field(STEP_TAG, packed)

    def _rule(self, tokens: List[Token]) -> bytes:
        named, rest = _template_in(tokens, self.steps)
        arguments, weights = _arguments_in(named, rest)
        numbers = [_count(token.text) if what == 'COUNT' else self._step_number(token)
                   for what, token in zip(named.takes, arguments)]
        if named.count is not None:
            numbers.append(_count(str(named.count)))
        x, y = (numbers + [WITHOUT_Y])[:2]
        bits = [weight_bits(token.text) for token in weights]
        return field(RULE_TAG, RuleField(named.template.number, x, y, (bits[0], bits[1], bits[2])).packed())

    def _step_number(self, token: Token) -> int:
        if token.text not in self.steps:
            near = nearest(token.text, self.steps)
            raise BadText(f'step {said(token.text)} is not declared above{near}')
        number = self.steps[token.text]
        if number >= WITHOUT_Y:
            raise BadText(f'step {said(token.text)} is beyond the 24 steps of a file')
        return number


def _template_in(tokens: List[Token], steps: Container[str]) -> Tuple[Spelled, List[Token]]:
    """The template at the start of a rule, whose name may be of several words, and what follows. Of
    'Exactly One a' the first word is a template too, but no step 'One' is declared after it."""
    bracket = next((place for place, token in enumerate(tokens) if token.is_mark), len(tokens))
    words = [token.text for token in tokens[:bracket]]
    if not words:
        raise BadText('a rule begins with its template: rule TEMPLATE X [Y | COUNT] SUPPORT CONFIDENCE INTEREST')
    in_brackets = bracket < len(tokens) and tokens[bracket].text in _CLOSING
    lengths = [len(words)] if in_brackets else range(1, min(len(words), 4) + 1)
    found = [(length, spelled(' '.join(words[:length]))) for length in lengths]
    known = [(length, named) for length, named in found if named is not None]
    if not known:
        raise BadText(why_unknown(' '.join(words) if in_brackets else words[0]))
    followed = [(length, named) for length, named in known if length < len(words) and words[length] in steps]
    length, named = (followed or known)[0]
    return named, tokens[length:]


def _arguments_in(named: Spelled, tokens: List[Token]) -> Tuple[Sequence[Token], Sequence[Token]]:
    """The tokens of the steps or the count, and those of the three weights."""
    wanted = len(named.takes)
    brace = next((token for token in tokens if token.is_mark and token.text in '{}'), None)
    if brace is not None:
        raise BadText('sets of steps, written as {arc,flat}, are not taken: write a rule for one step')
    if tokens and tokens[0].is_mark and tokens[0].text in _CLOSING:
        end = next((place for place, token in enumerate(tokens)
                    if token.is_mark and token.text == _CLOSING[tokens[0].text]), None)
        if end is None:
            raise BadText(f"'{tokens[0].text}' is not closed by '{_CLOSING[tokens[0].text]}'")
        arguments = _between_commas(tokens[1:end])
        weights = tokens[end + 1:]
    else:
        arguments, weights = tokens[:wanted], tokens[wanted:]
    stray = [token.text for token in [*arguments, *weights] if token.is_mark]
    if stray or len(arguments) != wanted or len(weights) != 3:
        usage = ' '.join([named.template.name, *named.template.takes])
        why = f"'{stray[0]}' is out of place; " if stray else ''
        raise BadText(f'{why}write: rule {usage} SUPPORT CONFIDENCE INTEREST')
    return arguments, weights


def _between_commas(tokens: List[Token]) -> List[Token]:
    """What stands between commas; a comma that separates nothing stays and is then out of place."""
    separated = len(tokens) % 2 == 1 and all(token.is_mark and token.text == ',' for token in tokens[1::2])
    return tokens[::2] if separated else [token for token in tokens if token.is_mark] or tokens


def check_encoding(content: bytes) -> None:
    """Refuses the other encoding that editors write."""
    if content[:2] in (b'\xff\xfe', b'\xfe\xff'):
        raise BadText('the text is in UTF-16: save it as UTF-8', 1)


def packed_text(content: bytes) -> PackedText:
    """The rule file that a text is the form of. BadText says the line that is none. The limits that
    the library checks (names, counts, weights, how many steps and rules) are left to it."""
    text = content.decode('utf-8-sig', 'surrogateescape')
    reader = _Text()
    packed, lines = [], []
    for number, line in enumerate(re.split('\r\n|\r|\n', text), start=1):
        try:
            if '\0' in line:
                raise BadText('there is a NUL byte, so this is no text')
            tokens = tokens_of(line)
            if tokens:
                packed.append(reader.field_of(tokens))
                lines.append(number)
        except BadText as bad:
            raise BadText(_printable(bad.reason), number) from None
    return PackedText(b''.join(packed), tuple(lines))


def _printable(text: str) -> str:
    """A message in one line, of characters that can be printed."""
    return ''.join(c if c.isprintable() else c.encode('unicode_escape', 'surrogatepass').decode() for c in text)


# ---- writing


def quoted(name: str) -> str:
    """A name as the text form has it: in quotes where it would be read as something else."""
    if name.startswith('#') or any(c in _MARKS or c == '"' for c in name):
        escaped = name.replace('\\', '\\\\').replace('"', '\\"')
        return f'"{escaped}"'
    return name


def weight_text(bits: int) -> str:
    """The weight of these 32 bits, rounded to the fewest digits that give them again."""
    weight = float_of(bits)
    for digits in range(1, 10):
        text = f'{weight:.{digits}g}'
        if bits_of(float(text)) == bits:
            return text
    return f'0x{bits:08X}'


def rule_words(rule: RuleField, steps: Sequence[str]) -> Tuple[str, List[str]]:
    """The name of an accepted rule's template and what it is applied to."""
    template = template_of(rule.template)
    assert template is not None
    words = [quoted(steps[rule.x])]
    if template.counts:
        words.append(str(rule.y))
    elif template.has_y:
        words.append(quoted(steps[rule.y]))
    return template.name, words


def rule_line(rule: RuleField, steps: Sequence[str]) -> str:
    """The line of a rule."""
    name, words = rule_words(rule, steps)
    return ' '.join(['rule', name, *words, *map(weight_text, rule.weights)])


def text_of(steps: Sequence[str], rules: Sequence[RuleField]) -> str:
    """The one text that is written for a file: its steps, an empty line, its rules."""
    lines = [f'step {quoted(name)}' for name in steps]
    if rules:
        lines += ['', *(rule_line(rule, steps) for rule in rules)]
    return '\n'.join(lines) + '\n'
