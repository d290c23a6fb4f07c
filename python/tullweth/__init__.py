"""Tullweth: prunes and monitors the Declare rules of telescope observing blocks.

    import tullweth

    file = tullweth.RuleFile.read('night.txt')
    for verdict in tullweth.prune(file):
        print(verdict.number, verdict.rule, verdict.fate.text)
    print(tullweth.show(file, 3).violating)
    print(tullweth.state(file, 2, ['expose', 'arc', 'expose']).value.text)

All answers are the proved library's. Functions take a RuleFile, or the path of a rule file or of its
text form; they raise Refused, BadText or NotThere (all of them TullwethError) where that does not
do. Each call has areas of its own, and threads may call at once.
"""

from .answers import (Fate, FileLike, Shown, ShownSequence, State, Value, Verdict, Watch, kept, prune, show,
                      show_each, state, states, states_of)
from .refusals import BadText, LibraryMissing, NotThere, Place, Refused, TullwethError
from .rule_file import Rule, RuleFile
from .templates import TEMPLATES, Template

__version__ = '0.5.0'

__all__ = [
    'BadText', 'Fate', 'FileLike', 'LibraryMissing', 'NotThere', 'Place', 'Refused', 'Rule', 'RuleFile', 'Shown',
    'ShownSequence', 'State', 'TEMPLATES', 'Template', 'TullwethError', 'Value', 'Verdict', 'Watch', 'kept', 'prune',
    'show', 'show_each', 'state', 'states', 'states_of',
]
