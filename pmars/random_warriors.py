"""Makes random load files and Redcode texts that mean the same to `cwtune` and pMARS.

So the differences that docs/PMARS.md names are left out.
"""

from author.lib.pmars.tokens import MODIFIERS

OPCODES = ("MOV MOV MOV MOV ADD ADD SUB MUL DIV MOD JMP JMP JMZ JMN DJN DJN "
           "SEQ SNE SLT SPL SPL NOP DAT").split()
# In this order, by which a seed gives the same warriors as ever.
MODES = "#$*@{}<>"
# Modes of an A-operand that may change the instruction itself, before an immediate B-operand is
# read.
CHANGING = "{}<>"


def random_number(dice, core):
    """Returns a number, mostly one near 0."""
    near = min(8, core - 1)
    return dice.randint(-near, near) if dice.random() < 0.8 else dice.randrange(core)


def random_modes(dice):
    a, b = dice.choice(MODES), dice.choice(MODES)
    return (a, "$") if a in CHANGING and b == "#" else (a, b)


def random_load(dice, rules):
    """Returns the load file of a random warrior."""
    length = dice.randint(1, min(rules.length, 12))
    lines = [f"ORG {dice.randrange(length)}"]
    for _ in range(length):
        a, b = random_modes(dice)
        numbers = [random_number(dice, rules.core) for _ in "AB"]
        lines.append(f"{dice.choice(OPCODES)}.{dice.choice(MODIFIERS)} "
                     f"{a}{numbers[0]}, {b}{numbers[1]}")
    return "\n".join(lines) + "\n"


class Text:
    """A random Redcode text: labels, EQU names, a FOR block and expressions."""

    def __init__(self, dice):
        self.dice = dice
        self.names = [f"name{k}" for k in range(dice.randint(0, 3))]
        self.labels = [f"label{k}" for k in range(dice.randint(0, 4))]

    def number(self):
        return str(self.dice.choice([0, 1, 2, 3, 5, 8, 13, 100, 7999, 8000]))

    def expression(self, depth=2):
        """Returns an expression in which parentheses say all that precedence would."""
        kind = self.dice.random()
        if depth == 0 or kind < 0.35:
            return self.dice.choice([self.number(), *self.names, *self.labels])
        if kind < 0.45:
            return f"-{self.number()}"
        left, right = self.expression(depth - 1), self.expression(depth - 1)
        sign = self.dice.choice(["+", "-", "*", "/", "%", "==", "!=", "<", ">", "<=", ">=", "&&",
                                 "||"])
        if sign in "/%":
            right = self.dice.choice("1234567")
        return f"({left} {sign} {right})"

    def operand(self):
        return f"{self.dice.choice([*MODES, ''])}{self.expression()}"

    def line(self, labels=""):
        """Returns an instruction with one operand or two."""
        opcode = self.dice.choice([*OPCODES, "CMP"])
        modifier = f".{self.dice.choice(MODIFIERS)}" if self.dice.random() < 0.3 else ""
        # pMARS requires two operands except for these and DAT, and completes DAT in another way.
        both = opcode not in ("JMP", "SPL") or self.dice.random() < 0.5
        operands = f"{self.operand()}, {self.operand()}" if both else self.operand()
        return f"{labels}\t{opcode}{modifier}\t{operands}"

    def block(self):
        """Returns a FOR block, whose counter is used by its value and in names."""
        count = self.dice.randint(0, 4)
        inner = [self.line(), f"made&i\tMOV.I\t$i, ${self.expression()}"]
        return [f"i\tFOR\t{count}", *inner, "\tROF"]

    def text(self):
        lines = [f"{name}\tEQU\t{self.number()}" for name in self.names]
        body = [self.line(label) for label in self.labels]
        body += [self.line() for _ in range(self.dice.randint(1, 6))]
        self.dice.shuffle(body)
        if self.dice.random() < 0.5:
            body += self.block()
        if self.labels and self.dice.random() < 0.5:
            lines.append(f"\tORG\t{self.dice.choice(self.labels)}")
        return "\n".join([";redcode", ";assert 1", *lines, *body, "\tEND", ""])
