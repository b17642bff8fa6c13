"""Standard output, whose faults are the program's own ones, and the progress on a terminal."""
from __future__ import annotations

import os
from contextlib import suppress

WIDTH = 40


class OutputFault(Exception):
    """Standard output can't be written. The text is the line that the program has for it."""


def write(fd: int, text: bytes) -> None:
    """Writes all bytes, past every buffer, so that what was written is known if it fails."""
    at = 0
    while at < len(text):
        at += os.write(fd, text[at:])


class Output:
    """Standard output; while there is work to do a bar is shown on standard error, if that is a terminal."""

    def __init__(self) -> None:
        self._is_shown = os.isatty(2)
        self._bar = ""

    def write(self, text: bytes) -> None:
        """Writes to standard output."""
        self._wipe()
        try:
            write(1, text)
        except OSError as error:
            raise OutputFault(f"cosmos: the output can't be written: {error.strerror} (os error {error.errno})") from None
        self._draw()

    def say(self, text: bytes) -> None:
        """Writes to standard error, in the place of the bar."""
        self.hide()
        with suppress(OSError):
            write(2, text)

    def show(self, done: int, whole: int, what: str) -> None:
        """Shows how much is done of the whole."""
        if self._is_shown:
            full = WIDTH * done // whole
            self._bar = f"[{'=' * full}{' ' * (WIDTH - full)}] {done} of {whole} {what}"
            self._draw()

    def hide(self) -> None:
        """Takes the bar away."""
        self._wipe()
        self._bar = ""

    def _draw(self) -> None:
        """Puts the bar on the terminal."""
        if self._bar:
            write(2, b"\r" + self._bar.encode())

    def _wipe(self) -> None:
        """Puts blanks in the place of the bar."""
        if self._bar:
            write(2, b"\r" + b" " * len(self._bar) + b"\r")
