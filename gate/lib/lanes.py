"""Begins the rounds of edits: as many side by side as there are processors and memory for, and
beside an `rt ci` each round when the libraries that it needs are proved."""
import concurrent.futures, os, re, time

from author.lib.endings import Fault

# The most memory that the check of a round has been seen to take, in kB, and the seconds after
# which a check shows how much it takes.
ROOM, SETTLED = 4_000_000, 30
PROVED = re.compile(r"rt: (\w+) (?:proved$|is kept: )")


def free_memory():
    """Returns the free memory in kB."""
    with open("/proc/meminfo") as lines:
        return next(int(line.split()[1]) for line in lines if line.startswith("MemAvailable"))


def lanes():
    """Returns how many checks run side by side: by the processors and the free memory."""
    return max(1, min(len(os.sched_getaffinity(0)), free_memory() // ROOM))


class Proofs:
    """The crates that a running `rt ci` has proved. `lines` reads the next line that it prints.
    Without `lines` none runs, and all libraries have to be built."""

    def __init__(self, lines=None):
        self.lines, self.names, self.are_over = lines, set(), lines is None

    def read(self):
        line = self.lines()
        if found := PROVED.match(line):
            self.names.add(found[1])
        self.are_over = not line

    def allow(self, crate):
        """Returns whether the crate's rounds may begin. None begins before `rt ci` has proved its
        first crate, since `rt ci` plans by the memory that is free when it starts."""
        below = crate.kit_crate.below()
        unbuilt = [crate.name for crate in below if not os.path.isdir(crate.rlib)]
        if self.are_over and unbuilt:
            raise Fault(f"{unbuilt[0]} is not built (`make build` builds it)", 2)
        return self.are_over or self.names and self.names >= {crate.name for crate in below}


def has_room(begun):
    """Returns whether one more round fits into memory. `rt ci` may grow by as much as a round, and
    so may each round that began less than SETTLED seconds ago."""
    young = sum(time.monotonic() - at < SETTLED for at in begun)
    return free_memory() > (2 + young) * ROOM


def in_lanes(rounds, judge, jobs, proofs):
    """Yields what `judge` returns of each round, `jobs` side by side. A round, whose first item is
    its crate, begins before those after it if `proofs` allow it."""
    left, running = [*rounds], {}
    with concurrent.futures.ThreadPoolExecutor(jobs + 1) as pool:
        reading = None
        while left or running:
            if not reading and not proofs.are_over:
                reading = pool.submit(proofs.read)
            allowed = [args for args in left if proofs.allow(args[0])]
            if allowed and len(running) < jobs and (proofs.are_over or has_room(running.values())):
                left.remove(allowed[0])
                running[pool.submit(judge, *allowed[0])] = time.monotonic()
                continue
            done, _ = concurrent.futures.wait(
                [*running, *([reading] if reading else [])], SETTLED,
                concurrent.futures.FIRST_COMPLETED)
            for future in done:
                if future == reading:
                    future.result()  # which raises what `read` raised
                    reading = None
                else:
                    del running[future]
                    yield future.result()
