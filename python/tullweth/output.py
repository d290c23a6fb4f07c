"""What the command reads and writes: files, standard streams, tables and progress."""

from __future__ import annotations

import errno
import os
import sys
import tempfile
import time
from pathlib import Path
from typing import Iterable, Iterator, List, Optional, Sequence, TextIO, TypeVar

#: The most that is read of a file; a rule file has at most some thousand bytes.
LONGEST_INPUT = 1 << 24

Item = TypeVar('Item')


class NotDone(Exception):
    """Something outside the file failed; the message says what."""


def input_name(path: str) -> str:
    """What a message calls an input."""
    return 'standard input' if path == '-' else path


def read_input(path: str) -> bytes:
    """The content of a file, or of standard input for '-'."""
    try:
        if path == '-':
            if sys.stdin is None:
                raise NotDone('standard input: is closed')
            content = sys.stdin.buffer.read(LONGEST_INPUT + 1)
        else:
            with open(path, 'rb') as stream:
                content = stream.read(LONGEST_INPUT + 1)
    except (OSError, ValueError) as reason:
        raise NotDone(f'{input_name(path)}: cannot be read: {_said(reason)}') from None
    if content is None:
        raise NotDone(f'{input_name(path)}: cannot be read: it does not wait for what is to come')
    if len(content) > LONGEST_INPUT:
        raise NotDone(f'{input_name(path)}: is longer than {LONGEST_INPUT} bytes')
    return content


def _said(reason: Exception) -> str:
    return reason.strerror if isinstance(reason, OSError) and reason.strerror else str(reason)


def write_standard(content: bytes) -> None:
    """Writes to standard output, whole and at once."""
    if sys.stdout is None:
        raise NotDone('standard output: is closed')
    try:
        sys.stdout.buffer.write(content)
        sys.stdout.flush()
    except BrokenPipeError:
        _forget(sys.stdout)
        raise
    except OSError as reason:
        _forget(sys.stdout)
        raise NotDone(f'standard output: cannot be written: {_said(reason)}') from None


def _forget(stream: TextIO) -> None:
    """Lets what could not be written be forgotten, so that Python does not try again at its end."""
    nowhere = os.open(os.devnull, os.O_WRONLY)
    os.dup2(nowhere, stream.fileno())
    os.close(nowhere)


def write_error(line: str) -> None:
    """Writes a line to standard error. Where that cannot be written there is nobody to tell."""
    if sys.stderr is None:
        return
    try:
        print(line, file=sys.stderr, flush=True)
    except OSError:
        _forget(sys.stderr)


def write_output(path: Optional[str], content: bytes) -> None:
    """Writes to a file, or to standard output where no path or '-' is given. A file is there whole or,
    where it cannot be written, as it was before."""
    if path is None or path == '-':
        write_standard(content)
        return
    place = Path(path)
    try:
        if place.exists() and not place.is_file():
            place.write_bytes(content)
        else:
            _replace(Path(os.path.realpath(path)), content)
    except (OSError, ValueError) as reason:
        raise NotDone(f'{path}: cannot be written: {_said(reason)}') from None


def _replace(place: Path, content: bytes) -> None:
    """Writes beside the place and renames, so that no half of a file is ever there. A file that may not
    be written is not replaced either."""
    if place.exists() and not os.access(place, os.W_OK):
        raise PermissionError(errno.EACCES, os.strerror(errno.EACCES))
    descriptor, beside = tempfile.mkstemp(prefix='.tullweth.', dir=place.parent)
    try:
        with open(descriptor, 'wb') as stream:
            stream.write(content)
        os.chmod(beside, place.stat().st_mode & 0o777 if place.exists() else 0o666 & ~_umask())
        os.replace(beside, place)
    except BaseException:
        os.unlink(beside)
        raise


def _umask() -> int:
    """What new files are not allowed; it is read by setting it."""
    mask = os.umask(0o077)
    os.umask(mask)
    return mask


def table(rows: Sequence[Sequence[str]], right: Iterable[int] = ()) -> str:
    """Lines of columns, two spaces apart; the columns of these places end at the right."""
    to_right = set(right)
    widths = [max(map(len, column)) for column in zip(*rows)]

    def cell(place: int, text: str) -> str:
        return text.rjust(widths[place]) if place in to_right else text.ljust(widths[place])

    lines: List[str] = ['  '.join(cell(place, text) for place, text in enumerate(row)) for row in rows]
    return ''.join(line.rstrip() + '\n' for line in lines)


def counted(count: int, name: str) -> str:
    """So many things of this name."""
    return f'1 {name}' if count == 1 else f'{count} {name}s'


def with_progress(items: Iterator[Item], total: int, what: str) -> List[Item]:
    """All items; a terminal sees how many there are already, where they take longer than a moment."""
    shows = sys.stderr is not None and sys.stderr.isatty()
    begun, said, done = time.monotonic(), False, []
    try:
        for item in items:
            done.append(item)
            if shows and len(done) < total and time.monotonic() - begun > 0.5:
                said = True
                print(f'\r{what}: {len(done)} of {total}', end='', file=sys.stderr, flush=True)
    finally:
        if said:
            print('\r\033[K', end='', file=sys.stderr, flush=True)
    return done
