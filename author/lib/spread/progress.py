"""Keeps which pieces of `cwtune-spread` are done, and prints the line that says so."""
import sys, time

from ..endings import tell
from ..watching import Pace, rewrite
from .report import best_of, index_of, summed

# Seconds from a line in a log to the next.
PAUSE = 20


class Progress:
    """What came of the pieces of a folder, by number, None for one that is not done, and the line
    of what is done: at a terminal, and with `in_log` every PAUSE seconds elsewhere."""

    def __init__(self, folder, in_log):
        self.folder, self.in_log, self.shown = folder, in_log, ""
        self.pace = Pace(PAUSE, told_at=-PAUSE)  # the first line comes at once
        numbers = range(1, folder.piece_count + 1)
        self.results = {number: folder.result(number) for number in numbers}
        self.began_at, self.settings_before = time.monotonic(), self.settings_done()

    def done(self):
        return [result for result in self.results.values() if result]

    def numbers_left(self):
        return [number for number, result in self.results.items() if result is None]

    def show(self):
        """Shows the line: at a terminal if it says something new, in a log if it is time."""
        if sys.stderr.isatty():
            line = self.line()
            if line != self.shown:
                rewrite(line)
            self.shown = line
        elif self.in_log and self.pace.begins_pause():
            tell(self.line())

    def clear(self):
        if self.shown:
            rewrite()

    def settings_done(self):
        return sum(len(self.folder.settings(number))
                   for number, result in self.results.items() if result)

    def time_left(self):
        """Returns the text of the time that is left, once a piece was done in this run."""
        settings = self.settings_done()
        if settings <= self.settings_before:
            return ""
        seconds_of_setting = (time.monotonic() - self.began_at) / (settings - self.settings_before)
        seconds_left = int(seconds_of_setting * (self.folder.setting_count - settings))
        return f", {seconds_left // 60}:{seconds_left % 60:02} left"


class PartsProgress(Progress):
    def line(self):
        parts, folder = self.done(), self.folder
        line = (f"{len(parts)} of {folder.piece_count} parts, {self.settings_done()} of "
                f"{folder.setting_count} settings, {summed(parts, 'fights', 0)} fights"
                f"{self.time_left()}")
        if best := best_of(parts):
            line += f", best {index_of(best)} total {best.total()} {best.report['constants']}"
        return line


class SharesProgress(Progress):
    def line(self):
        return (f"{len(self.done())} of {self.folder.piece_count} shares of the check, "
                f"{self.settings_done()} of {self.folder.setting_count} settings"
                f"{self.time_left()}")
