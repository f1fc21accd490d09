"""Finds the program, runs it, and turns the statuses with which it ends (docs/FORMATS.md) into exceptions."""
from __future__ import annotations

import os
import re
import shutil
import signal
import subprocess
from collections.abc import Sequence
from pathlib import Path

from ppart.errors import (BadAnswer, BrokenPipe, Failure, NotBuilt, NotFound, OutOfMemory, Refused, Stopped, TooSlow,
                          Usage)

Program = str | os.PathLike[str]

# The launcher at the top of the repository, if this file stands in one, and the program that it starts.
LAUNCHER = Path(__file__).resolve().parents[3] / "ppart"
BUILT = LAUNCHER.parent / "crates" / "ppart" / "out" / "ppart"


def find(program: Program | None = None) -> str:
    """The path of the program: the argument, else the variable PPART, else `ppart` on PATH, else the one
    that the launcher at the top of the repository starts.

    Raises NotBuilt if there is only a launcher that has not built it yet, and NotFound if there is nothing.
    """
    named = program or os.environ.get("PPART")
    if named:
        return os.fspath(named)
    on_path = shutil.which("ppart")
    if on_path:
        return on_path
    if BUILT.is_file():
        return str(BUILT)
    if LAUNCHER.is_file():
        raise NotBuilt("the program of this repository is not built yet", LAUNCHER)
    raise NotFound("there is no program ppart")


def run(words: Sequence[str], text: str | bytes = "", program: Program | None = None,
        timeout: float | None = None) -> str:
    """What the program writes for these words and this text.

    After `timeout` seconds it is stopped: TooSlow. The other errors are those of `find` and `failure`, and BadAnswer
    for bytes that are no text.
    """
    path = find(program)
    given = text if isinstance(text, bytes) else text.encode("utf-8", "surrogateescape")
    try:
        ended = subprocess.run([path, *words], input=given, capture_output=True, timeout=timeout)
    except subprocess.TimeoutExpired:
        raise TooSlow(f"the program did not end within {timeout} seconds", path) from None
    except OSError as error:
        raise NotFound(f"the program {path} cannot be run: {error.strerror}", path) from error
    if ended.returncode not in (0, 1):
        said = ended.stderr.decode("utf-8", "replace").strip()
        raise failure(ended.returncode, said, words, given)
    try:
        return ended.stdout.decode("ascii")
    except UnicodeDecodeError:
        raise BadAnswer("the answer is no text", path) from None


def failure(status: int, said: str, words: Sequence[str], given: bytes) -> Failure:
    """What a status other than 0 and 1 means, with this line on standard error, for these words and this text."""
    if status < 0:
        return Stopped(f"the program was stopped by {signal_name(-status)}", -status)
    if status == 2:
        return Usage(f"the program does not know the words: {' '.join(words)}", words)
    if status == 3:
        return refusal(said, given)
    kinds = {4: BrokenPipe, 5: BrokenPipe, 6: OutOfMemory, 126: NotBuilt, 127: NotBuilt}
    kind = kinds.get(status, Failure)
    return kind(f"the program ended with status {status}: {said or 'it said nothing'}", status)


def signal_name(number: int) -> str:
    """The name of a signal, or its number where it has none."""
    try:
        return signal.Signals(number).name
    except ValueError:
        return f"the signal {number}"


def refusal(said: str, given: bytes) -> Refused:
    """The refusal of this text that the line on standard error tells."""
    place = re.fullmatch(r"ppart: line (\d+): (.*)", said)
    if place is None:
        return Refused(said.removeprefix("ppart: "))
    number = int(place[1])
    lines = given.split(b"\n")
    source = lines[number - 1] if number <= len(lines) else b""
    return Refused(place[2], number, source.decode("utf-8", "replace").strip("\r"))
