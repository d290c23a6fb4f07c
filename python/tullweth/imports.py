"""Mined models made into rule files: MINERful's JSON and the .decl files of Declare4Py.

docs/FORMAT.md, "Imported models", says what is taken of each.
"""

from __future__ import annotations

import json
import re
from dataclasses import dataclass
from typing import Any, Dict, List, Optional, Sequence, Tuple

from .fields import LARGEST_WEIGHT, LONGEST_NAME, MOST_RULES, MOST_STEPS, WEIGHT_NAMES, bits_of
from .refusals import BadText
from .rule_file import Rule, RuleFile
from .templates import Spelled, spelled, why_unknown
from .text import check_encoding

Weights = Tuple[float, float, float]

#: The names of the weights in MINERful's JSON.
_JSON_WEIGHTS = (('support',), ('confidence',), ('interestFactor', 'interest'))
_CONSTRAINT = re.compile(r'([^\[\]|]+)\[([^\[\]]*)\]\s*(\|.*)?')
_ATTRIBUTE = re.compile(r'[^\[\]|:]+:.*')


@dataclass(frozen=True)
class Mined:
    """A rule of a model as it was found there: where, its template and parameters by the model's
    names, and its weights. `why` says why it cannot be a rule here, if it cannot."""

    where: str
    called: str
    named: Optional[Spelled]
    parameters: Tuple[str, ...]
    weights: Weights
    why: str = ''


@dataclass(frozen=True)
class Model:
    """The steps and rules of a mined model."""

    steps: Tuple[str, ...]
    rules: Tuple[Mined, ...]


@dataclass(frozen=True)
class Imported:
    """A rule file made of a model: the new names of steps that could not stay, and what was left
    out, each with the reason."""

    file: RuleFile
    renamed: Dict[str, str]
    left_out: Tuple[str, ...]

    def text(self) -> str:
        """The text form, with comments that say what was changed."""
        notes = [f'# {new} was {_in_comment(old)}' for old, new in self.renamed.items()]
        notes += [f'# left out: {_in_comment(reason)}' for reason in self.left_out]
        return '\n'.join([*notes, self.file.text()])


def _in_comment(text: str) -> str:
    return ''.join(c if c.isprintable() else '?' for c in text)


# ---- reading a model


def model_of(content: bytes, defaults: Optional[Weights] = None) -> Model:
    """The model that a file holds: JSON begins with a brace, anything else is read as .decl. The
    defaults are the weights of rules that have none; .decl has none, and takes 1 where none is given."""
    check_encoding(content)
    try:
        form = content.decode('utf-8-sig')
    except UnicodeDecodeError as bad:
        line = content.count(b'\n', 0, bad.start) + 1
        raise BadText('there is a character that is not UTF-8', line) from None
    if form.lstrip().startswith('{'):
        return _json_model(form, defaults)
    return _decl_model(form, defaults or (1.0, 1.0, 1.0))


def _json_model(form: str, defaults: Optional[Weights]) -> Model:
    try:
        model = json.loads(form)
    except json.JSONDecodeError as bad:
        raise BadText(f'this is no JSON: {bad.msg}', bad.lineno) from None
    except (ValueError, RecursionError):
        raise BadText('this JSON has a number that is too long, or is too deep') from None
    constraints = model.get('constraints')
    if not isinstance(constraints, list):
        raise BadText("the model has no list 'constraints', so it is none of MINERful's")
    rules = tuple(_json_rule(number, each, defaults) for number, each in enumerate(constraints, start=1))
    tasks = model.get('tasks', [])
    if not isinstance(tasks, list) or not all(isinstance(task, str) for task in tasks):
        raise BadText("'tasks' is no list of names")
    return Model(_all_steps(tasks, rules), rules)


def _json_rule(number: int, constraint: Any, defaults: Optional[Weights]) -> Mined:
    where = f'constraint {number}'
    if not isinstance(constraint, dict) or not isinstance(constraint.get('template'), str):
        raise BadText(f"{where} has no 'template'")
    parameters = constraint.get('parameters')
    if not isinstance(parameters, list):
        raise BadText(f"{where} has no list 'parameters'")
    sets = [each if isinstance(each, list) else [each] for each in parameters]
    if not all(isinstance(name, str) for each in sets for name in each):
        raise BadText(f"{where} has a parameter that is no name")
    weights = [_json_weight(where, constraint, place, defaults) for place in range(3)]
    why = '' if all(len(each) == 1 for each in sets) else 'a parameter is not one step'
    names = tuple('{' + ','.join(each) + '}' if len(each) != 1 else each[0] for each in sets)
    return _mined(where, constraint['template'], names, (weights[0], weights[1], weights[2]), why)


def _json_weight(where: str, constraint: Dict[str, Any], place: int, defaults: Optional[Weights]) -> float:
    name = next((name for name in _JSON_WEIGHTS[place] if name in constraint), None)
    if name is None and defaults is not None:
        return defaults[place]
    if name is None:
        raise BadText(f"{where} has no '{_JSON_WEIGHTS[place][0]}': give --weights for rules without")
    weight = constraint[name]
    if isinstance(weight, bool) or not isinstance(weight, (int, float)):
        raise BadText(f"{where}: '{name}' is no number")
    try:
        return float(weight)
    except OverflowError:
        return float('inf')


def _decl_model(form: str, defaults: Weights) -> Model:
    steps: List[str] = []
    rules: List[Mined] = []
    for number, line in enumerate(re.split('\r\n|\r|\n', form), start=1):
        line = line.strip()
        constraint = _CONSTRAINT.fullmatch(line)
        if line.startswith('activity '):
            steps.append(line[len('activity '):].strip())
        elif constraint is not None:
            rules.append(_decl_rule(f'line {number}', constraint, defaults))
        elif line and not line.startswith('#') and not _ATTRIBUTE.fullmatch(line):
            raise BadText(f"'{line[:60]}' is neither an activity, an attribute nor a constraint", number)
    if not steps and not rules:
        raise BadText('this is neither a JSON model of MINERful nor a .decl file: no activity and no constraint')
    return Model(_all_steps(steps, rules), tuple(rules))


def _decl_rule(where: str, constraint: 're.Match[str]', defaults: Weights) -> Mined:
    names = tuple(name.strip() for name in constraint[2].split(','))
    why = 'it has a condition on data or time' if (constraint[3] or '').strip('| \t') else ''
    return _mined(where, constraint[1].strip(), names, defaults, why)


def _mined(where: str, name: str, parameters: Tuple[str, ...], weights: Weights, why: str) -> Mined:
    """A rule of a model, with the first reason why it cannot be one here."""
    named = spelled(name)
    called = f'{name}({", ".join(parameters)})'
    if not why and named is None:
        why = why_unknown(name)
    if not why and named is not None:
        why = _unfit(named, parameters) or _outside(weights)
    return Mined(where, called, named, parameters, weights, why)


def _unfit(named: Spelled, parameters: Sequence[str]) -> str:
    if len(parameters) != len(named.takes):
        return f'{named.template.name} takes {len(named.takes)} parameters and has {len(parameters)}'
    if not all(parameters):
        return 'a parameter has no name'
    if named.template.has_y and parameters[0] == parameters[1]:
        return 'its steps are the same'
    count = _count_of(named, parameters)
    if count is not None and not 1 <= count <= 14:
        return 'its count is not from 1 to 14'
    return ''


def _count_of(named: Spelled, parameters: Sequence[str]) -> Optional[int]:
    """The count of a rule that counts; 0 where there is no number."""
    if not named.template.counts:
        return None
    if named.count is not None:
        return named.count
    return int(parameters[1]) if re.fullmatch('[0-9]{1,3}', parameters[1]) else 0


def _outside(weights: Weights) -> str:
    for name, weight in zip(WEIGHT_NAMES, weights):
        try:
            accepted = bits_of(weight) <= LARGEST_WEIGHT
        except OverflowError:
            accepted = False
        if not accepted:
            return f'its {name} is {weight:g}, not from 0 to 1'
    return ''


def _all_steps(steps: Sequence[str], rules: Sequence[Mined]) -> Tuple[str, ...]:
    """The declared steps and those that rules name besides, each once."""
    named = [name for rule in rules if rule.named and not rule.why for name in _steps_in(rule)]
    return tuple(dict.fromkeys([*steps, *named]))


def _steps_in(rule: Mined) -> Tuple[str, ...]:
    counts = rule.named is not None and 'COUNT' in rule.named.takes
    return rule.parameters[:1] if counts else rule.parameters


# ---- making a rule file


def imported(model: Model, best: Optional[int] = None, skip: bool = False, used: bool = False) -> Imported:
    """The rule file of a model. Rules that cannot be expressed are left out where `skip` says so;
    of the others the `best` by rank are taken, if a number is given; with `used`, only the steps that
    the rules taken name are declared."""
    unfit = [rule for rule in model.rules if rule.why]
    if unfit and not skip:
        first = unfit[0]
        others = f' (and {len(unfit) - 1} more)' if len(unfit) > 1 else ''
        raise BadText(f'{first.where}: {first.called}: {first.why}{others}; --skip leaves such rules out')
    fit = [rule for rule in model.rules if not rule.why]
    taken = fit if best is None else _best(fit, model.steps, best)
    steps = [step for step in model.steps if step in _all_steps([], taken)] if used else model.steps
    _check_sizes(steps, taken, used)
    names = _names_for(steps)
    file = RuleFile.of(names.values(), [_rule(rule, names) for rule in taken])
    left_out = [f'{rule.where}, {rule.called}: {rule.why}' for rule in unfit]
    left_out += [f'{rule.where}, {rule.called}: not among the best {best}' for rule in fit if rule not in taken]
    return Imported(file, {old: new for old, new in names.items() if old != new}, tuple(left_out))


def _check_sizes(steps: Sequence[str], rules: Sequence[Mined], used: bool) -> None:
    if len(rules) > MOST_RULES:
        raise BadText(f'the model has {len(rules)} rules, and a file takes 32: --best 32 takes the best of them')
    if len(steps) > MOST_STEPS:
        hint = '--best with a smaller number' if used else '--used, which declares only the steps that rules name'
        raise BadText(f'the model has {len(steps)} steps, and a file takes 24: try {hint}')
    if not steps:
        raise BadText('the model has no step')


def _best(rules: Sequence[Mined], steps: Sequence[str], most: int) -> List[Mined]:
    """The best by rank, in their order."""
    numbers = {name: number for number, name in enumerate(steps)}

    def key(place: int) -> Tuple[Any, ...]:
        rule = rules[place]
        assert rule.named is not None
        weights = [-bits_of(weight) for weight in rule.weights]
        second = _count_of(rule.named, rule.parameters)
        if second is None:
            second = numbers[rule.parameters[1]] if rule.named.template.has_y else 0xFF
        return (*weights, -rule.named.template.number, numbers[rule.parameters[0]], second, place)

    chosen = sorted(range(len(rules)), key=key)[:most]
    return [rules[place] for place in sorted(chosen)]


def _rule(rule: Mined, names: Dict[str, str]) -> Rule:
    assert rule.named is not None
    template = rule.named.template
    y = names[rule.parameters[1]] if template.has_y else None
    count = _count_of(rule.named, rule.parameters)
    return Rule(template.name, names[rule.parameters[0]], y, count, *rule.weights)


def _names_for(steps: Sequence[str]) -> Dict[str, str]:
    """A name of 1 to 16 visible characters for each step, no two alike: its own where that will do."""
    taken = {name for name in steps if _is_name(name)}
    names: Dict[str, str] = {}
    for step in steps:
        names[step] = step if _is_name(step) else _new_name(step, taken)
        taken.add(names[step])
    return names


def _is_name(name: str) -> bool:
    return 1 <= len(name) <= LONGEST_NAME and all('!' <= c <= '~' for c in name)


def _new_name(step: str, taken: 'set[str]') -> str:
    """The step's name with other characters replaced and cut, and a number where that is taken."""
    visible = ''.join(c if '!' <= c <= '~' else '_' for c in step.strip()) or 'step'
    candidates = [visible[:LONGEST_NAME]]
    candidates += [visible[:LONGEST_NAME - len(end)] + end for end in (f'~{n}' for n in range(2, 100))]
    return next(name for name in candidates if name not in taken)
