"""Runs jobs on this host: the pieces of `cwtune-spread`, and the heats of a study.

A folder says what each job is, by the number of a piece or the player of a heat: `prepare` writes
what it reads, `words` is what it runs in `path`, and `file` where each kind of output goes.
"""
import subprocess, time

from ..endings import end_with_parent


def ended(jobs, show):
    """Runs jobs. Yields number and status of each that ends, and calls `show` meanwhile."""
    try:
        while jobs.keep_running():
            yield from jobs.take_ended()
            show()
            time.sleep(0.02)
    finally:
        jobs.stop()


class LocalJobs:
    """Jobs that run on this host, at most `jobs` side by side. Each ends, so `fault` stays None."""

    fault = None

    def __init__(self, args, folder, numbers):
        self.folder, self.jobs, self.waiting = folder, args.jobs, list(numbers)
        self.running = {}

    def keep_running(self):
        """Starts as many jobs as may run. Returns whether one is running."""
        while self.waiting and len(self.running) < self.jobs:
            number = self.waiting.pop(0)
            self.running[number] = self.start(number)
        return bool(self.running)

    def start(self, number):
        folder = self.folder
        folder.prepare(number)
        with (folder.file(number, "report").open("wb") as report,
              folder.file(number, "fault").open("wb") as fault):
            return subprocess.Popen(folder.words(number), cwd=folder.path, stdin=subprocess.DEVNULL,
                                    stdout=report, stderr=fault, preexec_fn=end_with_parent)

    def take_ended(self):
        ended = [(number, job.returncode) for number, job in self.running.items()
                 if job.poll() is not None]
        for number, _ in ended:
            del self.running[number]
        return ended

    def stop(self):
        for job in self.running.values():
            job.kill()
            job.wait()
