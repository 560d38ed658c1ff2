#!/usr/bin/env python3
"""Writes the tables of classes, which are made of classes.txt, into the files of this crate.

A table is between a line that ends with `table NAME` and one that ends with `end of NAME`, both
comments. With --check nothing is written, and a file that differs is named: the status is 1 then.
"""
import pathlib, re, sys

HERE = pathlib.Path(__file__).resolve().parent
OPCODES = "DAT MOV ADD SUB MUL DIV MOD JMP JMZ JMN DJN SEQ SNE SLT SPL NOP".split()
MODIFIERS = "A B AB BA F X I I".split()
MODES = "#$*@{<}>"
# The canonical modifier of each opcode that has no use for one, and the opcodes that take whole
# instructions with I. With the others I does the same as F.
CANONICAL = {"DAT": "F", "JMP": "B", "SPL": "B", "NOP": "B"}
WHOLE = "MOV", "SEQ", "SNE"
# The classes of `execute_by_class`, and the keys of one part of `class_of_key`.
FIRST, PART = 64, 32


def parsed(line):
    opcode, modifier, a_mode, b_mode = re.fullmatch(r"(\w+)\.(\w+) (.), (.)", line).groups()
    if CANONICAL.get(opcode, modifier) != modifier or modifier == "I" and opcode not in WHOLE:
        sys.exit(f"classes.txt: {line}: no canonical modifier")
    o, m = OPCODES.index(opcode), MODIFIERS.index(modifier)
    a, b = MODES.index(a_mode), MODES.index(b_mode)
    return line, (o, m, a, b), m + 8 * o + 256 * (a + 8 * b)


CLASSES = [parsed(line) for line in (HERE / "classes.txt").read_text("utf-8").splitlines()]
PAIRS = [(a, b) for b in range(8) for a in range(8)]
COUNT = len(CLASSES)
CODES = [(o, m) for o in range(16) for m in range(8)]


def part_of_keys(first):
    return "class_of_key" if first == 0 else f"class_from_{first}"


def tests(first):
    for n in range(first, first + PART):
        name, _, key = CLASSES[n]
        word = "if" if n == first else "else if"
        yield f"    {word} k == {key} then {n}  -- {name}"
    last = first + PART == COUNT
    yield f"    else {'first_of_modes + k / 256' if last else f'{part_of_keys(first + PART)} k'}"


def keys(first):
    for n in range(first, first + PART):
        name, _, key = CLASSES[n]
        yield f"        {key} => {n}, // {name}"


def arms(first, last):
    for n in range(first, last):
        name, (o, m, a, b), _ = CLASSES[n]
        label = "_" if n == last - 1 else n
        yield f"        {label} => arm::<C, {o}, {m}, {a}, {b}>(cells, size, pc, cell, class), // {name}"


def pairs():
    for n, (a, b) in enumerate(PAIRS):
        label = "_" if n == 63 else COUNT + n
        modes = f"{MODES[a]}, {MODES[b]}"
        yield f"        {label} => pair_in::<C, {a}, {b}>(cells, size, pc, cell, class), // {modes}"


def codes():
    for n, (o, m) in enumerate(CODES):
        label = "_" if n == 127 else n
        name = f"{OPCODES[o]}.{MODIFIERS[m]}"
        yield f"        {label} => act_once::<C, PLACE, {o}, {m}>(cells, size, pc, a, b), // {name}"


def key_in():
    for n, (_, _, key) in enumerate(CLASSES):
        yield f"    {'if' if n == 0 else 'else if'} c == {n} then {key}"
    yield "    else 0"


def leads(first):
    for n in range(first, first + PART):
        _, _, key = CLASSES[n]
        yield f"    leads_if (k == {key}) k {n} _ {key} (λ e. eqb-true _ _ e) (omega arith) refl ("
    last = first + PART == COUNT
    yield f"    {'inr refl' if last else f'leads_from_{first + PART} k'}{')' * PART}"


PARTS = range(0, COUNT, PART)
TABLES = {
    "specs/Classes.antt": {f"keys from {n}": tests(n) for n in PARTS},
    "src/classes.rt": {f"keys from {n}": keys(n) for n in PARTS},
    "src/turn.rt": {"classes": arms(0, FIRST), "further classes": arms(FIRST, COUNT)},
    "src/general.rt": {"modes": pairs(), "codes": codes()},
    "proofs/Keys.antt": {"keys": key_in()} | {f"tests from {n}": leads(n) for n in PARTS},
}


def main():
    wrong = 0
    for path, tables in TABLES.items():
        file = HERE / path
        text = file.read_text("utf-8")
        new = text
        for name, lines in tables.items():
            mark = re.compile(rf"(?ms)^([^\n]*table of {name}\n).*?(^[^\n]*end of {name}$)")
            body = "\n".join(lines) + "\n"
            new, count = mark.subn(lambda m: m[1] + body + m[2], new)
            if count != 1:
                sys.exit(f"{path}: {count} tables of {name}")
        if new != text:
            wrong += 1
            print(f"{path}: differs")
            if "--check" not in sys.argv:
                file.write_text(new, "utf-8")
    if "--check" in sys.argv and wrong:
        sys.exit(1)


main()
