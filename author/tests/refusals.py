"""Gives the commands files and words that they have to refuse.

A table has what is refused for one reason. Its files are beside those of examples/tuning/, and the
names of those that are refused say what is wrong with them.
"""
import os

from .trial import TUNING, Refusal, Trial, python_with_matplotlib, refusals_of, usage_errors

# Files that are read as they should be.
RIGHT = {
    # Schedules of two fights (quoted.csv has quotes), and one of four, not those of step.cert.
    "two.csv": b"opponent,position,first\n0,3670,c\n0,5123,o\n",
    "other.csv": b"opponent,position,first\n0,3670,c\n0,5123,o\n1,2085,c\n1,6100,o\n",
    "quoted.csv": b'"opponent",position,"first"\n0,3670,c\n0,5123,o\n',
    # Templates of two settings, of one, and of 37 maps.
    "two.red": b";@tune K 0 1 1 0\nJMP 1-K\n",
    "plain.red": b"MOV 0, 1\n",
    "maps.red": b";@tune A 0 36 1 0\n;@tune B 0 0 1 0\n;@tune C 0 0 1 0\nMOV 0, 1\n",
    # What a job of a cluster leaves if no setting assembles, and a file of the user.
    "none.cert.1.fault": b"refused: NoCandidate\n",
    "none.cert.1.report": b"",
    "none.cert.whole": b"of the user\n",
    # Certificates of plain.red and of maps.red, and one in which no setting reaches the floor.
    "plain.cert": b"cwcert,1,1\nbest,0,3\ncap,0,0:3\n",
    "quoted.cert": b'"cwcert",1,1\nbest,0,3\ncap,0,0:3\n',
    "maps.cert": b"cwcert,1,37\nbest,0,3\ncap,0,0:3\n" + b"".join(
        b"same,%d,0\n" % setting for setting in range(1, 37)),
    "below-floor.cert": b"cwcert,1,2\nnone,-,4\ncap,0,0:0\nsame,1,0\n",
    # Certificates of two.csv. In the first only the first of the ranking is exact: setting 0, which
    # was dropped, may total 3, and comes before setting 2 with that total. In the other one the
    # first two are exact, since the dropped setting comes after the one with the total 3.
    "one-exact.cert": b"cwcert,1,4\nbest,1,4\ncap,0,0:0\ncap,1,0:3 1:1\ncap,2,0:3 1:0\n"
                      b"cap,3,0:1 1:0\n",
    "two-exact.cert": b"cwcert,1,4\nbest,1,4\ncap,0,0:3 1:0\ncap,1,0:3 1:1\ncap,2,0:1 1:0\n"
                      b"cap,3,0:0\n",
    # START was dropped before it played.
    "unplayed.cert": b"cwcert,1,2\nbest,1,4\ncap,0,-\ncap,1,0:3 1:1\n",
}
NOT_OF_ANY_KIND = {"binary": bytes(range(256)), "empty": b""}
NOT_SCHEDULES = {
    "weight-0.csv": b"opponent,position,first,weight\n0,3670,c,0\n",
    "weight-1001.csv": b"opponent,position,first,weight\n0,3670,c,1001\n",
    "first-z.csv": b"opponent,position,first\n0,3670,z\n",
    "10001-fights.csv": b"opponent,position,first\n" + b"0,3670,c\n" * 10001,
    "opponent-below-0.csv": b"opponent,position,first\n-1,3670,c\n",
    "position-below-0.csv": b"opponent,position,first\n0,-3670,c\n",
    "position-3_670.csv": b"opponent,position,first\n0,3_670,c\n",
}
NOT_CERTIFICATES = {
    "fight-below-0.cert": b"cwcert,1,1\nbest,0,3\ncap,0,-1:3\n",
    "fight-twice.cert": b"cwcert,1,1\nbest,0,3\ncap,0,0:3 0:3\n",
    "two-points.cert": b"cwcert,1,1\nbest,0,2\ncap,0,0:2\n",
    "same-as-itself.cert": b"cwcert,1,2\nbest,0,3\ncap,0,0:3\nsame,1,1\n",
    "row-of-two-fields.cert": b"cwcert,1,1\nbest,0,3\ncap,0\n",
    "same-as-no-setting.cert": b"cwcert,1,2\nbest,0,3\ncap,0,0:3\nsame,1,2\n",
    "best-without-a-row.cert": b"cwcert,1,1\nbest,1,3\ncap,0,0:3\n",
    "none-with-a-setting.cert": b"cwcert,1,2\nnone,0,4\ncap,0,0:0\nsame,1,0\n",
    "best-with-a-dash.cert": b"cwcert,1,2\nbest,-,4\ncap,0,0:0\nsame,1,0\n",
}
WRONG_CERTIFICATES = {
    "total-17-and-not-16.cert": (TUNING / "step.cert").read_bytes().replace(b"best,3,16",
                                                                            b"best,3,17"),
    "more-than-the-best.cert": b"cwcert,1,2\nbest,1,3\ncap,0,0:3 1:3\ncap,1,0:3 1:0\n",
    "no-such-fight.cert": b"cwcert,1,2\nbest,0,4\ncap,0,0:3 1:1\ncap,1,9:0\n",
    "no-fights.cert": b"cwcert,1,2\nbest,0,0\ncap,0,-\nsame,1,0\n",
    "four-rules.cert": b"cwcert,1,1\nbest,0,3\ncap,0,0:3\n",
    "four-rules.cert.inputs": b"cwtune inputs 1\nrules 8000 80000 8000 100\npart 1/1\nmethod all\n"
                              b"cert 1 x\nfolder .\ntemplate 1 x t\nschedule 1 x s\n"
                              b"opponent 1 x o\n",
}
WRONG_TEMPLATES = {
    "65537-bytes.red": b";" * 65537,
    "65546-bytes.red": b"DAT #, 0\n" + b";" * 65537,
    "four-words.red": b"NOP\n;@tune K 0 5 1\n",
    "value-65536.red": b";@tune K 65535 65536 1 65535\nMOV 0, K\n",
    "constant-twice.red": b";@tune K 0 5 1 1\n;@tune K 0 5 1 1\nMOV 0, K\n",
    "too-many-settings.red": b"".join(b";@tune %c 0 9999 1 0\n" % name for name in b"ABC"),
}
WRONG_WARRIORS = {
    "two-equs.red": b"STEP EQU 5\nSTEP EQU x\nMOV 0, STEP\n",
    "no-candidate.red": b";@tune K 0 1 1 0\nJMP x\n",
}
FILES = ({path.name: path.read_bytes() for path in TUNING.iterdir()} | RIGHT | NOT_OF_ANY_KIND
         | NOT_SCHEDULES | NOT_CERTIFICATES | WRONG_CERTIFICATES | WRONG_TEMPLATES | WRONG_WARRIORS)

NO_FILE = "No such file or directory"
CANNOT_BE_READ = [
    *(Refusal(words, 3, f"failed: none: {NO_FILE}")
      for words in ["cwtune-scores none schedule.csv", "cwtune-scores step.cert none",
                    "cwtune-scores none", "cwtune-files none",
                    "cwtune-landscape none step.cert x.png"]),
    Refusal("cwtune-scores step.cert .", 2, "error: . is not a regular file"),
    # A symbolic link to itself.
    Refusal("cwtune-study --out loop two.red plain.red", 2,
            "error: loop is a link, and is not touched"),
]
OF_ANOTHER_KIND = [
    *(Refusal(f"cwtune-files {name}", 1,
              f"refused: {name}: not a template, a schedule or a certificate")
      for name in NOT_OF_ANY_KIND),
    *(Refusal(f"cwtune-scores {name} schedule.csv", 1, f"refused: {name}: not a certificate")
      for name in [*NOT_OF_ANY_KIND, *NOT_CERTIFICATES, "schedule.csv"]),
    Refusal("cwtune-landscape step.red binary x.png", 1, "refused: binary: not a certificate"),
    *(Refusal(f"cwtune-scores step.cert {name}", 1, f"refused: {name}: not a schedule")
      for name in [*NOT_OF_ANY_KIND, *NOT_SCHEDULES, "step.cert"]),
]
NO_BEST_SETTING = [
    Refusal(words, 1, "refused: below-floor.cert: it names no best setting, since none reaches the "
            "floor 4")
    for words in ["cwtune-scores below-floor.cert schedule.csv",
                  "cwtune-landscape step.red below-floor.cert x.png",
                  "cwtune-holdout two.red below-floor.cert plain.red",
                  "cwtune-warrior two.red below-floor.cert"]
]
OF_WRONG_TEMPLATES = [
    *(Refusal(f"{words} 65537-bytes.red", 1,
              "refused: 65537-bytes.red: 65537 bytes, more than the 65536 of a template")
      for words in ["cwtune-files", "cwtune-scores step.cert schedule.csv --template"]),
    # Its beginning would be adapted.
    Refusal("cwtune-warrior --setting=start 65546-bytes.red", 1,
            "refused: 65546-bytes.red: more than 65536 bytes"),
    *refusals_of("cwtune-scores step.cert schedule.csv --template", 1, [
        *((name, f"refused: {name}: line {number} is not a range line: ;@tune NAME LOW HIGH STEP "
                 "START, with START one of the values")
          for name, number in [("four-words.red", 2), ("value-65536.red", 1)]),
        ("constant-twice.red", "refused: constant-twice.red: two range lines of one constant"),
        ("too-many-settings.red", "refused: too-many-settings.red: more than 1000000 settings")]),
]
OF_ANOTHER_SCHEDULE = [
    *(Refusal(words.format(cert, schedule), 2,
              f"error: {cert} is not a certificate of the schedule {schedule}")
      for words, cert, schedule in [
          ("cwtune-landscape step.red {} x.png --schedule {}", "step.cert", "other.csv"),
          *(("cwtune-scores {} {}", cert, schedule) for cert, schedule in [
              ("step.cert", "other.csv"), ("step.cert", "weighted.csv"),
              ("more-than-the-best.cert", "two.csv"), ("no-such-fight.cert", "two.csv")])]),
    *(Refusal(words.format(cert), 2,
              f"error: {cert}: its rows are not those of its best setting and total")
      for words, cert in [
          ("cwtune-holdout --top 1 two.red {} x.red", "more-than-the-best.cert"),
          ("cwtune-holdout --top 1 two.red {} x.red", "no-fights.cert"),
          ("cwtune-landscape two.red {} x.png", "no-such-fight.cert"),
          ("cwtune-landscape step.red {} x.png", "total-17-and-not-16.cert")]),
]
WRONG_WORDS = [
    *usage_errors("cwtune-scores", [
        ("four-rules.cert", "give SCHEDULE: four-rules.cert.inputs is malformed"),
        ("--json --csv step.cert schedule.csv", "argument --csv: not allowed with argument --json"),
        ("step.cert schedule.csv --top -3", "argument --top: -3 is not 1 or more"),
        ("step.cert schedule.csv --top x", "argument --top: invalid number value: 'x'")]),
    *usage_errors("cwtune-series", [
        ("1234 -5 -2", "argument ROUNDS: -5 is not 1 to 10000"),
        ("-- 1234 -5 -2", "argument ROUNDS: -5 is not 1 to 10000"),
        ("-- 1234 -x 2", "argument ROUNDS: invalid number value: '-x'"),
        ("-- 1234 5 2 -x", "unrecognized arguments: -x"),
        ("1234 1_0 2", "argument ROUNDS: invalid number value: '1_0'"),
        ("1234 5 65", "argument OPPONENTS: 65 is not 1 to 64"),
        ("1234 5 2 --core 70000", "argument --core: 70000 is not 8 to 65535"),
        ("1234 5 2 --distance 0", "argument --distance: 0 is not 1 to 32767"),
        ("40 5 2 --core 79 --distance 40", "--distance is more than half of --core"),
        ("100 5 2 --hill lp", "SEED 100 is not 200 to 7800, the positions that pMARS takes"),
        ("1234 5 2 --hill x", "argument --hill: invalid choice: 'x' (choose from '94nop', 'tiny', "
                              "'nano', 'lp')")]),
    *usage_errors("cwtune-holdout two.red more-than-the-best.cert x.red", [
        ("--rounds 10001", "--rounds 10001 against 1 opponent: more than 10000 fights"),
        ("--distance 4001", "--distance is more than half of --core"),
        ("--core 8_000", "argument --core: invalid number value: '8_000'")]),
    *usage_errors("cwtune-landscape", [
        ("stone.red all-fights.cert x.png --axes STEP,STEP",
         "--axes takes two of the constants STEP, FIRST, as in A,B"),
        ("stone.red all-fights.cert x.png --opponent 1", "--opponent needs --schedule"),
        ("stone.red all-fights.cert x.png --schedule schedule.csv --opponent 5",
         "--opponent 5: the opponents of the schedule are 0, 1, 2, 3, 4"),
        ("plain.red plain.cert x.png", "the template has no constants to draw"),
        ("step.red step.cert x.svg --effects ./x.svg", "both pictures would be x.svg"),
        *((f"step.red step.cert {options}{name}",
           f"the picture's name has to end with .png or .svg: {name}")
          for options, name in [("", "x.jpg"), ("", "x"), ("", "png"),
                                ("x.svg --effects=", "y.jpg"), ("x.svg --effects=", "svg")])]),
]
NOT_ASSEMBLED = [
    Refusal("cwtune-vary two-equs.red STEP=1:9", 1,
            "refused: two-equs.red does not assemble: Asm line 2 Expand DuplicateName"),
    Refusal("cwtune-spread --merge 1 no-candidate.red two.csv none.cert plain.red", 1,
            "refused: NoCandidate"),
]
# A program that prints nothing, and ends with the status 0.
NOT_CWTUNE = [
    Refusal(words, 3, f"failed: /bin/true{fault}") for words, fault in [
        ("cwtune-seek --program /bin/true two.red two.csv plain.red",
         " asm: not the output of cwtune"),
        ("cwtune-spread --program /bin/true --check-only two.red two.csv x.cert plain.red",
         " settings: not the output of cwtune"),
        ("cwtune-spread --program /bin/true two.red two.csv x.cert plain.red",
         " ended with status 0")]
]
WRONG_MERGES = [
    Refusal("cwtune-spread --merge 3 two.red two.csv x.cert plain.red", 2,
            "error: --merge 3: the template has fewer than 3 settings"),
    *usage_errors("cwtune-spread two.red two.csv x.cert x.red", [
        ("--merge 1000001", "argument --merge: 1000001 is not 1 to 1000000"),
        *((f"--check-only --merge 2 {option} 2",
           f"argument --check-only --merge: not allowed with argument {option}")
          for option in ["--shares", "--work"])]),
]
REFUSALS = [*CANNOT_BE_READ, *OF_ANOTHER_KIND, *NO_BEST_SETTING, *OF_WRONG_TEMPLATES,
            *OF_ANOTHER_SCHEDULE, *WRONG_WORDS, *NOT_ASSEMBLED, *NOT_CWTUNE, *WRONG_MERGES]
# What is refused only once matplotlib is there.
NOT_DRAWN = [
    Refusal("cwtune-landscape step.red step.cert none/x.png", 3, f"failed: none/x.png: {NO_FILE}"),
    Refusal("cwtune-landscape maps.red maps.cert x.png", 1,
            "refused: 37 maps, one for each choice of the other constants; at most 36: tune a "
            "template with fewer of them"),
]


class Refusals(Trial):
    FILES = FILES

    def test_refusals(self):
        os.symlink("loop", self.folder / "loop")
        before = sorted(os.listdir(self.folder))
        self.refused(REFUSALS)
        self.same("refusals write no file", before, sorted(os.listdir(self.folder)))

    def test_not_drawn(self):
        self.need(matplotlib=python_with_matplotlib())
        self.refused(NOT_DRAWN, python=python_with_matplotlib())
        self.same("no picture", None, self.read("x.png"))

    def test_shown(self):
        """Shows files that have something in common with those that are refused."""
        for name, line in [
            ("below-floor.cert", "certificate, version 1, of 2 settings: none reaches the floor 4"),
            *((name, "certificate, version 1, of 1 setting: best 0 total 3")
              for name in ["plain.cert", "quoted.cert"]),
            ("quoted.csv", "schedule of 2 fights, greatest total 6"),
        ]:
            self.same(f"cwtune-files {name}", (0, f"{name}: {line}\n", ""),
                      self.call(f"cwtune-files {name}"))
        for words, lines in [
            ("one-exact.cert two.csv", [
                "only the first of the ranking is exact; cwtune tune --keep 10 makes the first 10 "
                "exact", "setting 1: total 4"]),
            ("two-exact.cert two.csv --top=2", [
                "the first 2 of the ranking are exact", "setting 1: total 4",
                "setting 0: total 3"]),
        ]:
            output = self.call(f"cwtune-scores {words}").out
            self.same(f"the ranking of {words}", [
                "3 settings played all fights, 1 was dropped", *lines],
                [line.strip() for line in output.splitlines()[2:]])
        output = self.call("cwtune-scores unplayed.cert two.csv --template two.red").out
        self.same("a setting without a fight", 1, output.count(
            "    opponent 0: 0 wins 0 ties 0 losses, 0 of 6, 2 not played\n"))
