"""Plays a fight by a slow and plain machine, which shares nothing with the program.

It counts the turns whose instruction has no class of its own in the machine of `cwtune`
(docs/HOT_LOOP.md). It follows the 1994 draft: fetch the instruction, evaluate its A-operand, then
its B-operand, act.
"""
import collections, operator, pathlib, re

CLASSES = pathlib.Path(__file__).resolve().parent.parent / "crates" / "mars_core" / "classes.txt"
LINE = re.compile(r"(\w{3})\.(\w{1,2}) (.)(-?\d+), ?(.)(-?\d+)")
# A cell is a list: opcode, modifier, A-mode, A-number, B-mode, B-number. The places of its numbers.
A, B = 3, 5
# Which number of the A-instruction goes with which one of the B-instruction, by the modifier.
PAIRS = {"A": [(A, A)], "B": [(B, B)], "AB": [(A, B)], "BA": [(B, A)],
         "F": [(A, A), (B, B)], "I": [(A, A), (B, B)], "X": [(A, B), (B, A)]}
# The number that an indirect mode goes by, and how it changes: before, and after.
MODES = {"*": (A, 0, 0), "@": (B, 0, 0), "{": (A, -1, 0), "<": (B, -1, 0), "}": (A, 0, 1),
         ">": (B, 0, 1)}
COMPUTED = {"MOV": lambda _, a: a, "ADD": operator.add, "SUB": lambda b, a: b - a,
            "MUL": operator.mul, "DIV": lambda b, a: b // a, "MOD": lambda b, a: b % a}


def classes():
    """Returns the instructions that have a class, without their numbers."""
    lines = [line.replace(".", " ").replace(",", " ").split()
             for line in CLASSES.read_text().splitlines()]
    return {tuple(words) for words in lines}


class Fight:
    """A fight of two load files, the first of which moves first.

    Has the core, the two queues, the turns, and how often each instruction, by its canonical
    modifier, was executed.
    """

    def __init__(self, rules, loads, position):
        self.size, self.tasks, self.cycles = rules.core, rules.tasks, rules.cycles
        self.core = [["DAT", "F", "$", 0, "$", 0] for _ in range(rules.core)]
        self.queues = [collections.deque([self.load(text, at)])
                       for text, at in zip(loads, (0, position))]
        self.turns, self.executed = 0, collections.Counter()

    def load(self, text, at):
        """Puts a load file into the core. Returns the address where it starts."""
        start, *lines = text.splitlines()
        for k, line in enumerate(lines):
            op, modifier, a_mode, a, b_mode, b = LINE.fullmatch(line).groups()
            self.core[(at + k) % self.size] = [op, modifier, a_mode, int(a) % self.size, b_mode,
                                               int(b) % self.size]
        return (at + int(start.split()[1])) % self.size

    def play(self):
        """Plays until a side has no task, or the cycles are over."""
        for queue in self.queues * self.cycles:
            self.turn(queue)
            if not queue:
                return

    def turn(self, queue):
        """Executes the first task of a side, and counts its instruction."""
        pc = queue.popleft()
        cell = self.core[pc]
        self.executed[cell[0], canonical_modifier(*cell[:2]), cell[2], cell[4]] += 1
        self.turns += 1
        addresses = [address % self.size for address in self.step(pc, cell)]
        queue.extend(addresses[:self.tasks - len(queue)])

    def operand(self, pc, mode, number):
        """Returns the address that an operand points to, and a copy of the cell there."""
        if mode == "#":
            return pc, list(self.core[pc])
        at = (pc + number) % self.size
        if mode != "$":
            field, before, after = MODES[mode]
            cell = self.core[at]
            cell[field] = (cell[field] + before) % self.size
            at = (at + cell[field]) % self.size
            copy = list(self.core[at])
            cell[field] = (cell[field] + after) % self.size
            return at, copy
        return at, list(self.core[at])

    def step(self, pc, cell):
        """Executes the instruction at `pc`. Returns the addresses to queue."""
        op, modifier, a_mode, a_number, b_mode, b_number = cell
        a_address, a = self.operand(pc, a_mode, a_number)
        b_address, b = self.operand(pc, b_mode, b_number)
        pairs, target = PAIRS[modifier], self.core[b_address]
        if op == "MOV" and modifier == "I":
            self.core[b_address] = a
        elif op in COMPUTED:
            return [pc + 1] if self.computes(op, pairs, target, a, b) else []
        elif op == "DAT":
            return []
        elif op == "SPL":
            return [pc + 1, a_address]
        elif op in ("JMP", "JMZ", "JMN", "DJN"):
            return [a_address if self.jumps(op, pairs, target, b) else pc + 1]
        elif op != "NOP":
            return [pc + 2 if skips(op, modifier, pairs, a, b) else pc + 1]
        return [pc + 1]

    def computes(self, op, pairs, target, a, b):
        """Puts what an opcode computes into the target. Returns whether nothing is divided by 0."""
        possible = [pair for pair in pairs if op not in ("DIV", "MOD") or a[pair[0]] != 0]
        for source, goal in possible:
            target[goal] = COMPUTED[op](b[goal], a[source]) % self.size
        return possible == pairs

    def jumps(self, op, pairs, target, b):
        """Lowers the numbers of the target, if the opcode is DJN. Returns whether it jumps."""
        if op == "DJN":
            for _, goal in pairs:
                target[goal] = (target[goal] - 1) % self.size
        numbers = [b[goal] for _, goal in pairs]
        return {"JMP": True, "JMZ": not any(numbers), "JMN": any(numbers),
                "DJN": any(number != 1 for number in numbers)}[op]

    def result(self):
        """Returns the result line that `cwtune fight` prints of this fight."""
        mine, theirs = map(len, self.queues)
        outcome = "tie 1" if mine and theirs else "win 3" if mine else "loss 0"
        return f"{outcome} turns {self.turns}\n"

    def unclassed(self):
        """Returns the share of the turns whose instruction has no class of its own."""
        known = classes()
        return sum(count for key, count in self.executed.items() if key not in known) / self.turns


def canonical_modifier(op, modifier):
    """Returns the one modifier that stands for all with which the opcode does the same, as in the
    classes."""
    if op in ("JMP", "SPL", "NOP"):
        return "B"
    is_f = op == "DAT" or modifier == "I" and op not in ("MOV", "SEQ", "SNE")
    return "F" if is_f else modifier


def skips(op, modifier, pairs, a, b):
    """Returns whether SEQ, SNE or SLT skips an instruction."""
    if op == "SLT":
        return all(a[source] < b[goal] for source, goal in pairs)
    same = a == b if modifier == "I" else all(a[source] == b[goal] for source, goal in pairs)
    return same if op == "SEQ" else not same
