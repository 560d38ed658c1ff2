"""Plays `cwtune-vary` with the program."""
import re, subprocess

from .trial import SECONDS, Refusal, Trial, command, refusals_of, usage_errors

TEXT = """;redcode-94
;name Two Numbers
; STEP is not read here
STEP EQU 5 ; was [STEP:44]
far: equ (-20)
both EQU STEP+1
        MOV  bomb, @bomb
        ADD  #STEP, bomb
        JMP  -2
bomb    DAT  #STEP, #far
i       FOR  2
k       EQU  3
        ROF
        END
late    EQU  7
"""
TEMPLATE = TEXT.replace("STEP EQU 5 ;", ";@text STEP EQU [STEP] ;").replace(
    "far: equ", ";@tune STEP 1 9 4 5\nfar: equ")
FAR = ";@text far: equ ([far])\n;@tune far -30 10 10 -20"
# A text with places of each kind.
PLACES = """;redcode-94
;name Places
;strategy one
;strategy two
GATE equ -25
AIM  equ (bomb+1555)
go
throw: spl #0, <-25 ; [throw_b] is not a slot
        MOV.I bomb, @throw
        sub #2*8-3, bomb
        djn throw, <GATE
bomb    DAT >1, #4
i       for 2
x&i     dat i, 7
        rof
        end
"""
# A label, which is also a word of prose and the label of a dropped instruction.
DROPPED = """for 0
the old bomb
rof
for 0
bomb DAT 5, 5
rof
throw MOV 7, @aim
aim DAT 0, 0
bomb DAT 9, 1
"""
# The number of a line, what opens a place of it, what the template has there, and the notes.
OPENED = [
    (5, "GATE=-40:-10:5", ";@text GATE equ [GATE]\n;@tune GATE -40 -10 5 -25", ""),
    (5, "GATE=7,-25,100", ";@text GATE equ [GATE_choice:7,-25,100]\n;@tune GATE_choice 0 2 1 1\n"
     "GATE equ ((GATE_choice==0)*(7)+(GATE_choice==1)*(-25)+(GATE_choice==2)*(100))", ""),
    (5, "GATE=-30,-20", ";@text GATE equ [GATE]\n;@tune GATE -30 -20 5 -25",
     "note: GATE is -25, which is tried too\n"),
    (5, "GATE=-41:-9:5", ";@text GATE equ [GATE]\n;@tune GATE -40 -10 5 -25",
     "note: GATE is -25, so its values are -40 to -10 by 5\n"),
    (5, "GATE=1:12:5", ";@text GATE equ [GATE]\n;@tune GATE -25 10 5 -25",
     "note: GATE is -25, so its values are -25 to 10 by 5\n"),
    (6, "AIM.1=1555:1600", ";@text AIM  equ (bomb+[AIM_1])\n;@tune AIM_1 1555 1600 1 1555\n"
     "AIM  equ (bomb+AIM_1)", ""),
    (8, "throw.b=-40:-10:5", ";@text throw: spl #0, <[throw_b_] ; [throw_b] is not a slot\n"
     ";@tune throw_b_ -40 -10 5 -25\nthrow: spl #0, <throw_b_", ""),
    (9, "9.modifier=i,ab", ";@text         MOV[line9_modifier:.I,.AB] bomb, @throw\n"
     ";@tune line9_modifier 0 1 1 0\nFOR line9_modifier == 0\n        MOV.I bomb, @throw\nROF\n"
     "FOR line9_modifier == 1\n        MOV.AB bomb, @throw\nROF", ""),
    (10, "10.modifier=f", ";@text         sub[line10_modifier:,.f] #2*8-3, bomb\n"
     ";@tune line10_modifier 0 1 1 0\nFOR line10_modifier == 0\n        sub #2*8-3, bomb\nROF\n"
     "FOR line10_modifier == 1\n        sub.f #2*8-3, bomb\nROF",
     "note: 10.modifier is not written, which is tried too\n"),
    (10, "10.a.3=1:5:2", ";@text         sub #2*8-[line10_a_3], bomb\n;@tune line10_a_3 1 5 2 3\n"
     "        sub #2*8-line10_a_3, bomb", ""),
    (10, "10.b-mode=<,$", ";@text         sub #2*8-3, [line10_b_mode:<,]bomb\n"
     ";@tune line10_b_mode 0 1 1 1\nFOR line10_b_mode == 0\n        sub #2*8-3, <bomb\nROF\n"
     "FOR line10_b_mode == 1\n        sub #2*8-3, bomb\nROF", ""),
    (11, "11.opcode=djn,jmn", ";@text         [line11_opcode:djn,jmn] throw, <GATE\n"
     ";@tune line11_opcode 0 1 1 0\nFOR line11_opcode == 0\n        djn throw, <GATE\nROF\n"
     "FOR line11_opcode == 1\n        jmn throw, <GATE\nROF", ""),
    (14, "14.b=7:9", ";@text x&i     dat i, [line14_b]\n;@tune line14_b 7 9 1 7\n"
     "x&i     dat i, line14_b", ""),
    (13, "13.a=1:5", ";@text i       for [line13_a]\n;@tune line13_a 1 5 1 2\n"
     "i       for line13_a", ""),
]
LIST = """STEP=5: line 4, 3 uses
far=-20: line 5, 1 use
both.1=1: line 6, 0 uses
9.a=-2: line 9
7: line 7, a-mode=$ b-mode=@ modifier=- opcode=MOV
8: line 8, a-mode=# b-mode=$ modifier=- opcode=ADD
9: line 9, a-mode=$ modifier=- opcode=JMP
bomb: line 10, a-mode=# b-mode=# modifier=- opcode=DAT
"""
# An operand whose mode is in an EQU line, also by way of another.
MODE_IN_EQU = "gate EQU <-5\nway EQU gate\n MOV way, gate\n SPL #0, >3\n"
MODE_LIST = """gate.1=5: line 1, 2 uses
4.a=0: line 4
4.b=3: line 4
3: line 3, modifier=- opcode=MOV
4: line 4, a-mode=# b-mode=> modifier=- opcode=SPL
"""
# Of two blocks without copies only the second one has an instruction.
PROSE = "FOR 0\n this is a stone, 3 +\nROF\nFOR 0\n DAT 0, 5\nROF\n JMP 0\n"
PROSE_LIST = """4.a=0: line 4
5.a=0: line 5
5.b=5: line 5
7.a=0: line 7
5: line 5, a-mode=$ b-mode=$ modifier=- opcode=DAT
7: line 7, a-mode=$ modifier=- opcode=JMP
"""
# A text that is adapted: CURLINE is a number, a block is unrolled, and an EQU is written out twice.
OLD = """;redcode-94
bomb EQU spl #, <-5
go bomb
j FOR 2
y&j EQU 4
 bomb
 DAT j, y&j*9
 ROF
 FOR (MAXLENGTH-CURLINE)/50
 DAT 7, 7
 ROF
"""
OLD_LIST = """go.b=-5: line 2
y01=4: line 5, 1 use
7.b.1=9: line 7
9.a.1=50: line 9
10.a=7: line 10
10.b=7: line 10
go: line 2, a-mode=# b-mode=< modifier=- opcode=spl
7: line 7, a-mode=$ b-mode=$ modifier=- opcode=DAT
10: line 10, a-mode=$ b-mode=$ modifier=- opcode=DAT
"""
# An EQU that is written out twice.
USES = "K EQU 5\nbomb EQU spl #K, <K\nbomb\nbomb\n DAT 0, K\n"
USES_LIST = """K=5: line 1, 3 uses
5.a=0: line 5
2: line 2, a-mode=# b-mode=< modifier=- opcode=spl
5: line 5, a-mode=$ b-mode=$ modifier=- opcode=DAT
"""
FORM = (" is not of the form PLACE=LOW:HIGH:STEP or PLACE=VALUE,VALUE, as STEP=5:4000:10 or "
        "throw.b=-40,-25, without blanks")
MODES = "# $ * @ { < } >"
OPCODES = "dat mov add sub mul div mod jmp jmz jmn djn cmp seq sne slt spl nop"
TEXTS = {"two.red": TEXT, "label.red": "K EQU 1\nMOV K, 1/K\nDAT 1/(K-1)\n",
         "ranges.red": ";@tune K 0 1 1 0\nMOV 0, 1\n",
         "none.red": ";redcode\nK = 5\nMOV 0, K\n",
         "big.red": f"STEP EQU 1{'0' * 5000}\nFAR EQU 70000\nDAT 0\n"}
WRONG_RANGES = [
    *refusals_of("cwtune-vary", 1, [
        ("label.red K=1:2",
         "refused: label.red does not assemble: Asm line 3 Value DivisionByZero"),
        ("none.red", "refused: none.red does not assemble: Asm line 2 Expand Text BadByte"),
        ("ranges.red", "refused: ranges.red: it has range lines, so it is a template already"),
        *((f"big.red {place}=1:9", f"refused: {place} is {number}; values are -65535 to 65535")
          for place, number in [("STEP", f"1{'0' * 19}.."), ("FAR", 70000)])]),
    *(Refusal(f"cwtune-vary two.red {word}", 1, f"refused: two.red{fault}") for word, fault in [
        ("both=1:9", ", line 6: STEP+1 is not a plain number, so both can have no range; it has "
                     "both.1=1"),
        ("step=1:9", ": no line `step EQU number`; did you mean STEP?"),
        ("k=1:9", ": no line `k EQU number`"), ("late=1:9", ": no line `late EQU number`"),
        ("bom.b=1:9", ": no label `bom`; did you mean bomb?"),
        ("99.a=1:9", ", line 99: nothing there can be opened"),
        ("3.a=1:9", ", line 3: nothing there can be opened"),
        ("9.b=1:9", ", line 9: JMP has no b here"),
        ("9=1:9", ", line 9: give a field too, as 9.a"),
        ("STEP.a=1:9", ", line 4: give STEP or STEP.1, as STEP is the name of an EQU line"),
        ("bomb.a=1:9", ", line 10: STEP is not a plain number, so bomb.a can have no range"),
        ("both.2=1:9", ", line 6: both has 1 number, and no both.2")]),
    Refusal("cwtune-vary two.red STEP=1:9 4.1=2:5", 2,
            "error: two.red, line 4: STEP and STEP.1 are in one place"),
    *usage_errors("cwtune-vary two.red", [
        ("STEP=1:9 STEP=2:5", "STEP has two ranges"),
        *((word, f"argument PLACE=VALUES: {word}{fault}") for word, fault in [
            *((word, FORM) for word in ["STEP=1", "STEP=a:b", "STEP", "STEP=1,", "bomb.b.0=1:2"]),
            *((word, f": there is no field {field}; there are a b a-mode b-mode modifier opcode")
              for word, field in [("bomb.c=1:2", "c"), ("bomb.mode=<,>", "mode")]),
            ("STEP=9:1", ": 9 is above 1"), ("STEP=1:9:0", ": the step is 0"),
            ("STEP=1:99999", ": values are -65535 to 65535"),
            ("bomb.a-mode=#,q", f": q is not a mode; there are {MODES}"),
            ("bomb.modifier=ab,", ": nothing is not a modifier; there are a b ab ba f x i"),
            ("bomb.opcode=ldp", f": ldp is not an opcode; there are {OPCODES}")])]),
]


class Varying(Trial):
    FILES = TEXTS

    def opened(self, name, *words):
        """Returns the result of `cwtune-vary`. Its output stays in t.red."""
        result = self.call("cwtune-vary", name, *words)
        self.write("t.red", result.out)
        return result

    def test_templates(self):
        block = "i       FOR  2\nk       EQU  3\n        ROF\n"
        text, template = TEXT.replace(block, ""), TEMPLATE.replace(block, "")
        self.write("two.red", text)
        self.same("one constant", (0, template, "note: 3 settings\n"),
                  self.opened("two.red", "STEP=1:9:4"))
        self.same("no slot is in a comment", "t.red: template of 3 settings, constants STEP\n",
                  self.call("cwtune-files t.red").out)
        self.same("two constants", (
            0, template.replace("far: equ (-20)", FAR), "note: 15 settings\n"),
            self.opened("two.red", "far=-30:10:10", "STEP=1:9:4"))
        self.write("lines.red", text.replace("\n", "\r\n").encode())
        words = command(*self.words("cwtune-vary lines.red STEP=1:9:4"))
        out = subprocess.run(words, cwd=self.folder, capture_output=True, timeout=SECONDS).stdout
        self.same("CR LF", template.replace("\n", "\r\n"), out.decode())
        status, _, err = self.opened("two.red", "STEP=1:3000", "far=-999:0")
        self.same("too many settings for tune", (
            0, "note: 3000000 settings: too many for `cwtune tune`; cwtune-study and cwtune-seek "
            "have them race\n"), (status, err))
        self.write("bomb.red", DROPPED)
        self.same("a label that dropped blocks have too", (0, 1), (
            (result := self.opened("bomb.red", "bomb.a=1:9")).status,
            result.out.count("\n;@text bomb DAT [bomb_a], 1\n")))
        self.write("go.red", "DEC EQU 0\ngo\nFOR DEC\n DAT 5, 5\nROF\n MOV 1, 2\n JMP go\n")
        self.same("a label before a dropped block", (0, 1), (
            (result := self.opened("go.red", "go.a=1:9")).status,
            result.out.count("\n;@text  MOV [go_a], 2\n")))
        self.write("two.red", TEXT.replace("FOR  2", "FOR  0"))
        self.same("what could be opened", (0, LIST, ""), self.opened("two.red"))

    def test_hidden(self):
        """Lists texts with fields that are not where they seem to be, and opens those."""
        for name, text, listed, words in [
            ("mode.red", MODE_IN_EQU, MODE_LIST, [
                ("3.a-mode=<,>", ", line 3: 3.a-mode is in line 1, an EQU line"),
                ("3.b-mode=<,>", ", line 3: 3.b-mode is in line 1, an EQU line")]),
            ("prose.red", PROSE, PROSE_LIST, []),
            ("uses.red", USES, USES_LIST, []),
            ("tab.red", " MOV\t.I 0, 1\n", "1.a=0: line 1\n1.b=1: line 1\n1: line 1, a-mode=$ "
             "b-mode=$ modifier=I opcode=MOV\n", []),
            ("old.red", OLD, OLD_LIST, [
                ("go.a=1:9", ", line 2: 0 is not written there, so go.a can have no range"),
                ("8.a=1:9", ", line 8: nothing there can be opened"),
                ("9.a.2=1:9", ", line 9: 9.a has 1 number, and no 9.a.2")]),
        ]:
            self.write(name, text)
            self.same(f"the list of {name}", (0, listed), self.opened(name)[:2])
            for word, fault in words:
                status, _, err = self.opened(name, word)
                self.same(f"{word} of {name}", (1, f"refused: {name}{fault}"),
                          (status, err.splitlines()[-1]))

    def test_signs(self):
        """Opens a number for one below 0, and again in the text that comes of it."""
        self.write("signs.red", ";strategy own\nAIM EQU 7-2\n MOV 0, AIM*(-3)\n")
        self.opened("signs.red", "AIM.2=5,3,-9", "3.b.1=-3:3:6")
        own = self.call("cwtune-warrior --setting=7 t.red").out
        self.same("below 0 and above", ";strategy own\n;strategy cwtune: AIM.2=-9 3.b.1=3\n"
                  "AIM EQU 7-(-9)\n MOV 0, AIM*(3)\n", own)
        self.write("signs.red", own)
        self.same("listed", ["AIM.1=7: line 3, 1 use", "AIM.2=-9: line 3, 1 use"],
                  self.opened("signs.red").out.split("\n")[:2])
        status, out, err = self.opened("signs.red", "AIM.2=5,3,-9")
        self.same("opened again", (0, "note: 3 settings\n", 1), (
            status, err, out.count("AIM EQU 7-([AIM_2_choice:5,3,-9])")))

    def test_negatives(self):
        """Gives numbers values below 0, and opens them again."""
        self.write("start.red", "AIM EQU 5+bomb\nbomb DAT #2*8-1, <-5\n MOV <2+1, {+7\n")
        places = ["AIM.1", "bomb.a.2", "bomb.b", "3.a.1", "3.b"]
        self.opened("start.red", *(f"{place}=-9:9:{step}" for place, step in zip(
            places, [7, 17, 2, 11, 8])))
        own = self.call("cwtune-warrior --setting=0 t.red").out
        line, _, text = own.partition("\n")
        self.same("below 0", "AIM EQU (-9)+bomb\nbomb DAT #2*(-9)-1, <-9\n MOV <(-9)+1, {+-9\n",
                  text)
        self.write("own.red", text)
        listed = re.findall(r"(?m)^(.*)(?==-9: )", self.opened("own.red").out)
        self.same("listed", (places, 5), (listed, line.count("=-9")))

    def test_places(self):
        self.write("places.red", PLACES)
        lines = PLACES.split("\n")
        for number, word, new, notes in OPENED:
            status, out, err = self.opened("places.red", word)
            self.same(f"opened: {word}", (
                0, "\n".join([*lines[:number - 1], new, *lines[number:]]), notes),
                (status, out, err[:err.rfind("note: ")]))
            self.returned(word, 1)
        words = [word for _, word, _, _ in OPENED[5:7] + OPENED[8:12]]
        self.opened("places.red", "GATE=-40:-10:5", *words)
        self.returned("all", 6)

    def returned(self, name, most):
        """Compares the texts of START, the first and the last setting with the original."""
        settings = int(self.cwtune(["settings", "t.red"]).out.split()[1])
        for setting in ["start", 0, settings - 1]:
            out = self.call(f"cwtune-warrior --setting={setting} t.red").out.split("\n")
            own = [line for line in out if not line.startswith(";strategy cwtune: ")]
            differ = [line for line, other in zip(own, PLACES.split("\n")) if line != other]
            self.same(f"{name}: the text of setting {setting}", (1, 4, True), (
                len(out) - len(own), out.index(next(line for line in out if line not in own)),
                len(own) == PLACES.count("\n") + 1
                and len(differ) <= (0 if setting == "start" else most)))

    def test_far_apart(self):
        """Gives a list of two numbers between which is more than the greatest step."""
        self.write("far.red", "FAR EQU 40000\n DAT 0, FAR\n")
        self.opened("far.red", "FAR=40000,-40000")
        self.same("an index", "t.red: template of 2 settings, constants FAR_choice\n",
                  self.call("cwtune-files t.red").out)

    def test_names(self):
        """Opens two places after which one constant would be named."""
        self.write("names.red", "line2 dat 5, 6\n dat 7, 8\n")
        self.opened("names.red", "line2.a=1:9", "2.a=1:9")
        self.same("a name for each", "t.red: template of 81 settings, constants line2_a line2_a_\n",
                  self.call("cwtune-files t.red").out)
        self.same("their places", ";strategy cwtune: line2.a=1 2.a=2",
                  self.call("cwtune-warrior --setting=1 t.red").out.split("\n")[0])

    def test_only_mode(self):
        """Opens a mode that is not written for this mode alone."""
        self.write("mode.red", " jmp 0\n")
        self.opened("mode.red", "1.a-mode=$")
        self.same("its value", ";strategy cwtune: 1.a-mode=-\n jmp 0\n",
                  self.call("cwtune-warrior --setting=0 t.red").out)

    def test_side_by_side(self):
        """Opens two fields that are not written, and between which is nothing."""
        self.write("near.red", " jmp(1)\n")
        modifier, mode = "1.modifier=a,b", "1.a-mode=$,@"
        for words in (modifier, mode), (mode, modifier):
            kept = self.opened("near.red", *words).out.split("\n")[0]
            self.same(" ".join(words), ";@text  jmp[line1_modifier:,.a,.b][line1_a_mode:,@](1)",
                      kept)

    def test_refusals(self):
        self.refused(WRONG_RANGES)
        self.same("a missing file", 3, self.call("cwtune-vary none").status)
