"""Makes the load file of the instructions of a text, as pMARS 0.9.2 makes its listing."""
import enum

from .text import Chars, PmarsFault
from .tokens import MODIFIERS, PSEUDO_OPCODES, token_at
from .values import NoValue, ParserThere

# What may follow in an operand after its first token, though it is a mode too.
OPERATORS = "<>*"
# The modifier if the A-mode is #, else if the B-mode is #, and otherwise.
DEFAULTS = {**dict.fromkeys(["DAT", "NOP"], ("F", "F", "F")),
            **dict.fromkeys(["MOV", "CMP", "SEQ", "SNE"], ("AB", "B", "I")),
            **dict.fromkeys(["ADD", "SUB", "MUL", "DIV", "MOD"], ("AB", "B", "F")),
            **dict.fromkeys(["SLT", "LDP", "STP"], ("AB", "B", "B"))}
ONE_OPERAND = ["SPL", "JMP", "NOP"]
# What is read next of an instruction; a REST comes after the first token of an operand.
Awaited = enum.Enum("Awaited", "MODIFIER_OR_A MODIFIER A A_REST B REST")


class Operand:
    """An operand: its mode, where that is on the line, and its expression."""

    def __init__(self):
        self.mode, self.mode_root, self.chars = "$", None, Chars()

    def roots(self):
        """Returns the places on the line of which it is made."""
        return {*self.chars.roots, self.mode_root} - {None}


class Instruction:
    """An instruction, or a pseudo-opcode, whose value is its B-operand."""

    def __init__(self, text, code, address):
        self.text, self.code, self.address = text, code, address
        opcode = token_at(code.chars.text, 0)
        self.opcode, self.root = opcode.text, code.chars.roots[opcode.start]
        self.is_pseudo = self.opcode in PSEUDO_OPCODES
        self.modifier, self.head_roots, self.has_value = "", {self.root}, False
        self.a, self.b = Operand(), Operand()
        rest = Chars(code.chars.text[opcode.end:], code.chars.roots[opcode.end:])
        self.read(rest, Awaited.REST if self.is_pseudo else Awaited.MODIFIER_OR_A)

    def fault(self, message):
        return PmarsFault(self.code.index, message)

    def read(self, chars, state):
        """Reads characters from a state on. Returns the state at their end."""
        at = 0
        while True:
            if state not in (Awaited.A_REST, Awaited.REST):
                self.has_value = False
            token = token_at(chars.text, at)
            self.text.count_token()
            if not token.kind:
                return state
            state, at = self.step(token, chars.roots[token.start:token.end], state)

    @staticmethod
    def rest_of(state):
        """Returns the state after the first token of an operand."""
        return Awaited.REST if state in (Awaited.B, Awaited.REST) else Awaited.A_REST

    def read_name(self, token, roots, state):
        """Reads what a name stands for. Returns the state after it."""
        root = roots[0]
        known = self.text.names.get(token.text)
        if known is None:
            if len(token.text) > 1:
                raise self.fault(f"{token.text} has no value")
            self.add(self.rest_of(state), token.text, roots)
            return self.rest_of(state)
        if known.is_open:
            raise self.fault("an EQU that names itself")
        inner = Chars()
        if known.kind == "text":
            self.text.finder.names.late_use(self.code, root, token.text, known)
            inner.add(known.lines[0].text, root)
        else:
            inner.add(str(known.value - (0 if self.is_pseudo else self.address)), root)
        known.is_open = True
        state = self.read(inner, state)
        known.is_open = False
        return state

    def step(self, token, roots, state):
        """Reads a token and the roots of its characters. Returns the next state and column."""
        root = roots[0]
        if state == Awaited.MODIFIER:
            return self.read_modifier(token, root), token.end
        if token.kind == "name":
            return self.read_name(token, roots, state), token.end
        if state in (Awaited.A_REST, Awaited.REST):
            return self.read_rest(token, roots, state), token.end
        if token.kind == "mode":
            operand = self.b if state == Awaited.B else self.a
            operand.mode, operand.mode_root = token.text, root
            return self.rest_of(state), token.end
        if token.kind in ("number", "sign"):
            return self.rest_of(state), token.start
        if token.kind == "dot" and state == Awaited.MODIFIER_OR_A:
            self.head_roots.add(root)
            return Awaited.MODIFIER, token.end
        raise self.fault(f"{token.text} is at a wrong place")

    def read_modifier(self, token, root):
        self.modifier = token.text.upper()
        self.head_roots.add(root)
        if self.modifier not in MODIFIERS:
            raise self.fault(f"{token.text} is not a modifier")
        return Awaited.A

    def read_rest(self, token, roots, state):
        """Reads a token of an expression, or the comma after the A-operand."""
        if token.kind == "comma" and state == Awaited.A_REST:
            return Awaited.B
        if token.kind not in ("number", "sign") and token.text not in OPERATORS:
            raise self.fault(f"{token.text} is at a wrong place")
        self.add(state, token.text, roots)
        if token.kind == "number":
            self.add(state, " ", roots[-1:])
        return state

    def add(self, state, text, roots):
        chars = (self.a if state == Awaited.A_REST else self.b).chars
        chars.extend(text, roots)
        self.has_value = True

    def complete(self):
        """Fills in what is not written. Refuses an instruction without an operand that it needs."""
        if self.is_pseudo:
            return
        if not self.has_value:
            raise self.fault(f"{self.opcode} without an operand")
        if not self.b.chars.text:
            if self.opcode == "DAT":
                self.text.finder.code.lone_operand(self)
                self.a, self.b = self.b, self.a
                self.a.mode = "#"
            elif self.opcode not in ONE_OPERAND:
                raise self.fault(f"{self.opcode} without a B-operand")
            else:
                self.b = Operand()
        if not self.modifier:
            when_a, when_b, otherwise = DEFAULTS.get(self.opcode, ("B", "B", "B"))
            self.modifier = (when_a if self.a.mode == "#" else when_b if self.b.mode == "#"
                             else otherwise)

    def value(self, operand):
        chars = operand.chars
        if not chars.text:
            return 0
        try:
            node = ParserThere(chars.text).whole()
            before = dict(self.text.registers)
            value = self.text.registers.value(chars.text, node)
        except NoValue as fault:
            raise self.fault(f"an operand has no value: {fault}") from None
        self.text.finder.code.operand(self, operand, node, before)
        return value


class Load:
    """The load file of a text: its start, and its lines."""

    def __init__(self, text):
        self.text, self.start, self.lines = text, 0, []
        if not text.address:
            raise PmarsFault(None, "no instruction")
        self.start_code, self.org_codes = None, []
        for code in text.code:
            instruction = Instruction(text, code, len(self.lines))
            instruction.complete()
            if instruction.is_pseudo:
                self.set_start(instruction)
            else:
                self.add(instruction)
        if len(self.lines) != text.address:
            raise PmarsFault(None, "an EQU of several lines as an operand, which pMARS reads by "
                             "chance")
        if len(self.lines) > text.rules.length:
            raise PmarsFault(None, f"{len(self.lines)} instructions")
        if self.start >= len(self.lines):
            text.finder.code.start_outside(self.start_code)

    def set_start(self, instruction):
        value = instruction.value(instruction.b)
        if instruction.opcode == "ORG":
            self.org_codes.append(instruction)
            self.text.finder.code.org(instruction)
        elif instruction.opcode == "END" and value and not self.start:
            self.text.finder.code.end_over_org(self.org_codes)
        else:
            return
        self.start, self.start_code = value % self.text.rules.core, instruction

    def add(self, instruction):
        core = self.text.rules.core
        values = [instruction.value(operand) % core for operand in (instruction.a, instruction.b)]
        numbers = [value - core * (2 * value > core) for value in values]
        self.text.finder.code.instruction(instruction)
        opcode = "SEQ" if instruction.opcode == "CMP" else instruction.opcode
        self.lines.append(f"{opcode}.{instruction.modifier} {instruction.a.mode}{numbers[0]}, "
                          f"{instruction.b.mode}{numbers[1]}")

    def bytes(self):
        return "".join(f"{line}\n" for line in [f"ORG {self.start}", *self.lines]).encode()
