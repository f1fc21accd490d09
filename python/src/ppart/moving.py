"""A line that moves on a terminal while long work goes on."""
from __future__ import annotations

import threading
import time
from types import TracebackType
from typing import TextIO

CLEAR = "\x1b[K"


class MovingLine:
    """A line that moves on a terminal, and nothing elsewhere: `with MovingLine(sys.stderr) as line`.

    `line.progress(done, total)` says how many of how many are done.
    """

    def __init__(self, stream: TextIO) -> None:
        self.stream = stream
        self.so_far = ""
        self.over = threading.Event()
        self.mover = threading.Thread(target=self.move, daemon=True)

    def progress(self, done: int, total: int | None) -> None:
        """What the line says from now on."""
        self.so_far = f", {done} of {total or '?'} done"

    def move(self) -> None:
        """Writes the line five times a second, until it is over."""
        began = time.monotonic()
        while not self.over.wait(0.2):
            seconds = time.monotonic() - began
            sign = "|/-"[int(5 * seconds) % 3]
            print(f"\r{sign} {seconds:.0f} s{self.so_far}", end=f"{CLEAR}\r", file=self.stream, flush=True)
        print(end=CLEAR, file=self.stream, flush=True)

    def __enter__(self) -> MovingLine:
        if self.stream.isatty():
            self.mover.start()
        return self

    def __exit__(self, kind: type[BaseException] | None, error: BaseException | None,
                 trace: TracebackType | None) -> None:
        self.over.set()
        if self.mover.is_alive():
            self.mover.join()
