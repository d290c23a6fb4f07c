"""The command `tullweth`. It reads and writes; all that it says of rules is the library's."""

from __future__ import annotations

import argparse
import io
import json
import shlex
import sys
from typing import Any, Callable, Dict, List, NoReturn, Optional, Sequence, Tuple

from . import __version__, answers
from .answers import MOST_STANDINGS, Fate, Shown, ShownSequence, State, Verdict, Watch
from .imports import imported, model_of
from .output import (NotDone, counted, input_name, read_input, table, with_progress, write_error, write_output,
                     write_standard)
from .refusals import LibraryMissing, Refused, TullwethError
from .rule_file import RuleFile

DONE, BAD_INPUT, USAGE = 0, 1, 2

#: The most bytes of a line of steps.
_LONGEST_LINE = 1 << 20

_STATUSES = 'Status: 0 done; 1 refused or bad input, said in one message; 2 wrong usage.'
_FILE = "a rule file, or the text form of one; '-' is standard input"
_RULE = "the number of a rule, or the rule as 'Response(expose, arc)'; all rules without it"


# ---- what is printed


def _json(said: Any) -> bytes:
    return (json.dumps(said, indent=2) + '\n').encode('ascii')


def _count(count: int) -> str:
    return '-' if count == 0 else f'over {MOST_STANDINGS}' if count > MOST_STANDINGS else str(count)


def _verdict_lines(verdicts: Sequence[Verdict]) -> str:
    head = ('', 'rule', 'fate', 'first count', 'second count')
    rows = [(str(each.number), str(each.rule), each.fate.text, _count(each.first_count), _count(each.second_count))
            for each in verdicts]
    return table([head, *rows], right=(0, 3, 4)) if rows else ''


def _summary(verdicts: Sequence[Verdict]) -> str:
    if not verdicts:
        return 'the file has no rule\n'
    remaining = sum(each.fate.remains for each in verdicts)
    gone = [fate for fate in Fate if not fate.remains]
    counts = {fate: sum(each.fate is fate for each in verdicts) for fate in gone}
    parts = [f'{count} {fate.text.split(",")[0]}' for fate, count in counts.items() if count]
    remain = 'remains' if remaining == 1 else 'remain'
    return f'{remaining} of {counted(len(verdicts), "rule")} {remain}' + ''.join(f', {part}' for part in parts) + '\n'


def _next_after_pruning(path: str, verdicts: Sequence[Verdict]) -> str:
    """What to do next, for a person: a rule that does not remain, conflicting ones first."""
    gone = [(fate, each.number) for fate in (Fate.CONFLICTING, Fate.IMPLIED, Fate.DROPPED)
            for each in verdicts if each.fate is fate]
    if path == '-' or not gone:
        return ''
    file = shlex.quote(path)
    return f'next: tullweth show {file} {gone[0][1]}, tullweth prune {file} --kept\n'


def _sequence(sequence: Optional[ShownSequence]) -> str:
    return 'none' if sequence is None else ' '.join(sequence.steps) or 'the empty sequence'


def _shown_lines(shown: Shown, verdict: Verdict) -> str:
    head = f'{shown.number} {shown.rule}: {verdict.fate.text}\n'
    return head + f'  satisfying: {_sequence(shown.satisfying)}\n  violating:  {_sequence(shown.violating)}\n'


def _state_row(state: State) -> Tuple[str, ...]:
    return str(state.number), str(state.rule), state.value.text, counted(state.relevant, 'relevant step')


def _changed_lines(number: int, name: str, changed: Sequence[Tuple[State, bool]]) -> str:
    """A step of a watched block and what it changed; a state whose value is the same has other permitted steps."""
    rows = [(f'  {state.number}', str(state.rule), state.value.text + ('' if moved else ', other steps permitted'))
            for state, moved in changed]
    return f'{number} {name}\n' + table(rows, right=(0,))


def _end_lines(watch: Watch) -> str:
    open_rules = [f'{state.number} {state.rule}' for state in watch.states if not state.value.satisfied]
    head = f'end after {counted(len(watch.run), "step")}: '
    if not watch.states:
        return head + 'the file has no rule\n'
    return head + (f'not satisfied: {", ".join(open_rules)}' if open_rules else 'all rules are satisfied') + '\n'


# ---- the subcommands


def _file(options: argparse.Namespace) -> RuleFile:
    return RuleFile.from_content(read_input(options.file))


def _numbers(file: RuleFile, rule: Optional[str]) -> List[int]:
    """The numbers of the rules that are asked for."""
    if rule is None:
        return list(range(1, len(file.rules) + 1))
    # No more digits than a number that no file has needs.
    return [int(rule.lstrip('0')[:20] or 0)] if rule.isascii() and rule.isdigit() else file.numbers_of(rule)


def _write_file(options: argparse.Namespace, file: RuleFile, as_text: bool) -> None:
    """Writes a file in the text form or packed, or as JSON."""
    if options.json:
        write_output(options.output, _json({**file.as_json(), 'text': file.text(), 'hex': file.data.hex()}))
    elif as_text:
        write_output(options.output, file.text().encode('ascii'))
    elif options.output in (None, '-') and sys.stdout is not None and sys.stdout.isatty():
        raise NotDone('a rule file is no text for a terminal: give -o OUT, or send the output to a file')
    else:
        write_output(options.output, file.data)


def _prune(options: argparse.Namespace) -> None:
    file = _file(options)
    verdicts = answers.prune(file)
    if options.kept:
        _write_file(options, file.with_rules(each.number for each in verdicts if each.fate.remains), file.is_text)
    elif options.json:
        remaining = [each.number for each in verdicts if each.fate.remains]
        rules = [each.as_json() for each in verdicts]
        write_output(options.output, _json({'steps': list(file.steps), 'rules': rules, 'remaining': remaining}))
    else:
        lines = _verdict_lines(verdicts) + _summary(verdicts) + _next_after_pruning(options.file, verdicts)
        write_output(options.output, lines.encode('utf-8', 'surrogateescape'))


def _show(options: argparse.Namespace) -> None:
    file = _file(options)
    numbers = _numbers(file, options.rule)
    verdicts = answers.prune(file)
    shown = with_progress(answers.show_each(file, numbers), len(numbers), 'showing rules')
    pairs = [(each, verdicts[each.number - 1]) for each in shown]
    if options.json:
        said = [{**each.as_json(), 'fate': verdict.fate.text, 'fate_number': int(verdict.fate)}
                for each, verdict in pairs]
        write_standard(_json({'shown': said}))
    else:
        write_standard((''.join(_shown_lines(*pair) for pair in pairs) or 'the file has no rule\n').encode('ascii'))


def _state(options: argparse.Namespace) -> None:
    file = _file(options)
    numbers = _numbers(file, options.rule)
    states = with_progress(answers.states_of(file, numbers, options.steps), len(numbers), 'states of rules')
    if options.json:
        write_standard(_json({'run': options.steps, 'states': [each.as_json() for each in states]}))
    else:
        said = table([_state_row(each) for each in states], right=(0,)) or 'the file has no rule\n'
        write_standard(said.encode('ascii'))


class _BadStep(Exception):
    """A step on standard input, and not the file, is refused."""


def _watch(options: argparse.Namespace) -> None:
    if options.file == '-':
        _usage(options, 'the steps come from standard input, so FILE has to be a path')
    watch = Watch(_file(options))
    at_terminal = sys.stdin is not None and sys.stdin.isatty()
    if at_terminal and not options.json:
        rules = counted(len(watch.file.rules), 'rule')
        write_error(f'watching {rules}: type the names of steps, and end with Ctrl-D')
    for number, line in _lines_of_input():
        for name in line.split():
            try:
                _watch_step(options, watch, name)
            except Refused as refused:
                if not at_terminal:
                    raise _BadStep(refused.at_line(number)) from None
                _complain(options, f'{refused}; not taken', refused.as_json())
    if options.json:
        unsatisfied = [state.number for state in watch.states if not state.value.satisfied]
        write_standard(_json_line({'end': len(watch.run), 'not_satisfied': unsatisfied}))
    else:
        write_standard(_end_lines(watch).encode('ascii'))


def _json_line(said: Any) -> bytes:
    return (json.dumps(said) + '\n').encode('ascii')


def _lines_of_input() -> Any:
    """The lines of standard input as they come, with their numbers."""
    if sys.stdin is None:
        raise NotDone('standard input: is closed')
    try:
        lines = iter(lambda: sys.stdin.buffer.readline(_LONGEST_LINE + 1), b'')
        for number, line in enumerate(lines, start=1):
            if len(line) > _LONGEST_LINE:
                raise NotDone(f'standard input: line {number}: is longer than {_LONGEST_LINE} bytes')
            yield number, line.decode('utf-8', 'backslashreplace')
    except OSError as reason:
        raise NotDone(f'standard input: cannot be read: {reason.strerror}') from None


def _watch_step(options: argparse.Namespace, watch: Watch, name: str) -> None:
    before = watch.states
    changed = [(state, state.value is not before[state.number - 1].value) for state in watch.step(name)]
    if options.json:
        said = {'number': len(watch.run), 'step': name, 'changed': [state.as_json() for state, _ in changed]}
        write_standard(_json_line(said))
    else:
        write_standard(_changed_lines(len(watch.run), name, changed).encode('ascii'))


def _pack(options: argparse.Namespace) -> None:
    _write_file(options, _file(options), as_text=False)


def _unpack(options: argparse.Namespace) -> None:
    _write_file(options, _file(options), as_text=True)


def _names(options: argparse.Namespace) -> None:
    file = _file(options)
    if options.json:
        write_standard(_json({'steps': list(file.steps)}))
    else:
        write_standard(table([(str(number), name) for number, name in enumerate(file.steps)], right=(0,)).encode())


def _import(options: argparse.Namespace) -> None:
    weights = options.weights and (options.weights[0], options.weights[1], options.weights[2])
    model = model_of(read_input(options.file), weights)
    made = imported(model, best=options.best, skip=options.skip, used=options.used)
    if options.json:
        said = {**made.file.as_json(), 'renamed': made.renamed, 'left_out': list(made.left_out), 'text': made.text()}
        write_output(options.output, _json(said))
    else:
        write_output(options.output, made.text().encode('utf-8'))


# ---- arguments


class _Parser(argparse.ArgumentParser):
    """Says what is wrong first and the usage after it, and ends with status 2."""

    def error(self, message: str) -> NoReturn:
        write_error(f'{self.prog}: {message}\n{self.format_usage().rstrip()}')
        raise SystemExit(USAGE)


def _usage(options: argparse.Namespace, message: str) -> NoReturn:
    parser: _Parser = options.parser
    parser.error(message)


def _weight(word: str) -> float:
    weight = float(word)
    if not 0 <= weight <= 1:
        raise ValueError(word)
    return weight


def _best(word: str) -> int:
    if not word.isascii() or not word.isdigit():
        raise ValueError(word)
    return int(word)


def _add(commands: Any, name: str, does: Callable[[argparse.Namespace], None], about: str, more: str = '',
         file: str = _FILE, metavar: str = 'FILE') -> argparse.ArgumentParser:
    epilog = f'{more}\n\n{_STATUSES}' if more else _STATUSES
    parser: _Parser = commands.add_parser(name, help=about, description=about + '.', epilog=epilog,
                                          allow_abbrev=False, formatter_class=argparse.RawDescriptionHelpFormatter)
    parser.add_argument('file', metavar=metavar, help=file)
    parser.add_argument('--json', action='store_true', help='write JSON, for programs')
    parser.set_defaults(does=does, parser=parser, steps=[])
    return parser


def _add_output(parser: argparse.ArgumentParser) -> None:
    parser.add_argument('-o', '--output', metavar='OUT', help='write to this file and not to standard output')


_MORE_SHOW = '''The satisfying sequence satisfies the rule and the better rules kept in the first pass, the violating
one those and not the rule. Each is the shortest that does, and among several as short the one whose
first differing step is declared earlier.'''
_MORE_STATE = '''STEP .. are the names of the steps of the run, in order:
  tullweth state night.txt 2 -- expose arc expose
A step is relevant to a rule if it changes the value, or which steps are permitted next.'''
_MORE_WATCH = '''One or more names a line. Each step prints the rules to which it was relevant; the end prints the
rules that are not satisfied. A name that is not declared ends it with status 1; typed at a terminal
it is said and not taken.'''
_MORE_IMPORT = '''MODEL is a JSON file of MINERful, or a .decl file as Declare4Py writes it, in which rules have no
weights. Names that cannot be names of steps are changed, and comments say how.'''


def _parser() -> argparse.ArgumentParser:
    parser = _Parser(prog='tullweth', allow_abbrev=False, epilog=_STATUSES, formatter_class=argparse.HelpFormatter,
                     description='Prunes and monitors the Declare rules of observing blocks.')
    parser.add_argument('--version', action='version', version=f'tullweth {__version__}')
    commands = parser.add_subparsers(metavar='COMMAND', required=True, parser_class=_Parser)
    pruning = _add(commands, 'prune', _prune, 'the fate of each rule and the counts behind it')
    pruning.add_argument('--kept', action='store_true',
                         help='write the finally kept rules as a file instead, in the form of FILE')
    _add_output(pruning)
    showing = _add(commands, 'show', _show, 'the sequences behind the fate of a rule, or of all', _MORE_SHOW)
    showing.add_argument('rule', metavar='RULE', nargs='?', help=_RULE)
    about = 'the value and relevant steps of a rule after a run, or of all'
    monitor = _add(commands, 'state', _state, about, _MORE_STATE)
    monitor.add_argument('rule', metavar='RULE', nargs='?', help=_RULE)
    monitor.usage = 'tullweth state [-h] [--json] FILE [RULE] -- [STEP ...]'
    _add(commands, 'watch', _watch, 'steps from standard input, and the rules that each one changed', _MORE_WATCH,
         file='a rule file, or the text form of one')
    _add_output(_add(commands, 'pack', _pack, 'the rule file of a text form'))
    _add_output(_add(commands, 'unpack', _unpack, 'the text form of a rule file, in one spelling'))
    _add(commands, 'names', _names, 'the names of the steps, with their numbers')
    _add_import(commands)
    return parser


def _add_import(commands: Any) -> None:
    parser = _add(commands, 'import', _import, 'the text form of a mined model', _MORE_IMPORT,
                  file="the model; '-' is standard input", metavar='MODEL')
    parser.add_argument('--best', metavar='N', type=_best, help='take the N best rules by rank')
    parser.add_argument('--skip', action='store_true', help='leave out rules that cannot be expressed')
    parser.add_argument('--used', action='store_true', help='declare only the steps that rules name')
    parser.add_argument('--weights', nargs=3, type=_weight, metavar=('SUPPORT', 'CONFIDENCE', 'INTEREST'),
                        help='the weights of rules that have none (1 1 1 in .decl)')
    _add_output(parser)


def _options(words: Sequence[str]) -> argparse.Namespace:
    """The options; what follows the first '--' of `state` is the run."""
    given = list(words)
    steps: List[str] = []
    if given[:1] == ['state'] and '--' in given:
        place = given.index('--')
        given, steps = given[:place], given[place + 1:]
    options, unknown = _parser().parse_known_args(given)
    if unknown:
        hint = '; the steps of the run come after --' if options.does is _state else ''
        _usage(options, f'not understood: {" ".join(unknown)}{hint}')
    options.steps = steps
    return options


# ---- running


def _complain(options: Optional[argparse.Namespace], message: str, more: Optional[Dict[str, Any]] = None) -> None:
    """One message on standard error, as JSON where that is asked for."""
    if options is not None and options.json:
        write_error(json.dumps({'error': {**(more or {}), 'message': message}}))
    else:
        write_error('tullweth: ' + ''.join(c if c.isprintable() else ascii(c)[1:-1] for c in message))


def _run(options: argparse.Namespace) -> int:
    try:
        options.does(options)
        return DONE
    except TullwethError as bad:
        _complain(options, f'{input_name(options.file)}: {bad}', bad.as_json())
    except _BadStep as bad_step:
        _complain(options, f'{input_name("-")}: {bad_step}', bad_step.args[0].as_json())
    except (NotDone, LibraryMissing) as failed:
        _complain(options, str(failed))
    except BrokenPipeError:
        pass
    return BAD_INPUT


def main(words: Optional[Sequence[str]] = None) -> int:
    """Runs the command; gives its status."""
    if isinstance(sys.stderr, io.TextIOWrapper):
        sys.stderr.reconfigure(errors='backslashreplace')
    try:
        return _run(_options(sys.argv[1:] if words is None else words))
    except SystemExit as asked:
        return _ended(asked)
    except KeyboardInterrupt:
        return 130


def _ended(asked: SystemExit) -> int:
    """The status after the help, the version or a wrong usage, whose text may not have been written."""
    try:
        if asked.code == DONE:
            write_standard(b'')
    except (NotDone, BrokenPipeError) as failed:
        _complain(None, str(failed))
        return BAD_INPUT
    return int(asked.code or DONE)
