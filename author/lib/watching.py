"""Says on standard error how far a command is."""
import os, sys, time

from .endings import losing_lines, tell


def rewrite(line=""):
    """Rewrites the line of the terminal, cut to its width. Without a new one it is cleared."""
    with losing_lines():
        width = os.get_terminal_size(sys.stderr.fileno()).columns or 80
        print(f"\r{line[:width - 1]}\x1b[K", end="", file=sys.stderr, flush=True)


class Pace:
    """Writes a line on standard error now and then: at least `pause` seconds after the last one."""

    def __init__(self, pause=15, told_at=None):
        self.pause, self.told_at = pause, time.monotonic() if told_at is None else told_at

    def begins_pause(self):
        """Returns whether the pause is over. If so, another one begins."""
        if time.monotonic() - self.told_at < self.pause:
            return False
        self.told_at = time.monotonic()
        return True

    def tell(self, line):
        if self.begins_pause():
            tell(line)


# A terminal has one line, which is rewritten twice a second.
AT_TERMINAL = sys.stderr.isatty()
PACE = Pace(0.5 if AT_TERMINAL else 15)


def watched(items, count, what):
    """Yields the items, of which there are `count`, and now and then shows how many were."""
    shown = False
    try:
        for index, item in enumerate(items):
            if index % 1024 == 1023 and PACE.begins_pause():
                (rewrite if AT_TERMINAL else tell)(f"{what}: {index + 1} of {count}")
                shown = AT_TERMINAL
            yield item
    finally:
        if shown:
            rewrite()
