"""Plays `cwtune-warrior` and `cwtune-holdout` with the program."""
import json

from author.lib import tuning_files, warrior
from author.lib.program import assemble

from .origins import note
from .trial import TUNING, Trial, refusals_of, usage_errors

FIGHT = "opponent,position,first\n0,4000,c\n"
# Templates with range lines at unusual places, and how many settings they have.
PLACES = {
    "in a block": (b"i FOR 2\n;@tune K 3 4 1 3\nDAT i, K\nROF\n", 2),
    "after END": (b"MOV 0, K\nEND\n;@tune K 3 4 1 3\n", 2),
    "before the head": (b"From: a@b\n;@tune K 3 4 1 3\n;redcode\nMOV 0, K\n", 2),
    "after the head": (b";redcode-94\n;name N\n;@tune K 3 4 1 3\nMOV 0, K\n", 2),
    "CR LF": (b";redcode\r\n;@tune K 3 4 1 3\r\nMOV 0, K\r\n", 2),
    "a negative value": (b";@tune K -2 2 1 0\nMOV #-K, 7-K*K\n", 5),
    "no constant": (b"MOV 0, 1\n", 1),
}
# A chain of 16 EQU names, e1 to e16, that ends at K. As an EQU name K would be the 17th.
CHAIN = b"".join([b";@tune K 3 4 1 3\n",
                  *(b"e%d EQU e%d\n" % (number, number + 1) for number in range(1, 16)),
                  b"e16 EQU K\nDAT e1\n"])
WRONG_WORDS = [
    *refusals_of("cwtune-warrior", 2, [
        ("stone.red step.cert",
         "error: the certificate is of 21 settings, and the template has 273"),
        *((f"step.red --setting {setting}", "error: the template has 21 settings, from 0")
          for setting in [21, 9999999999])]),
    *usage_errors("cwtune-warrior step.red", [
        ("", "CERT is missing: give it, or --setting W"),
        ("step.cert --setting 0", "give CERT or --setting, and not both"),
        *((f"--setting {word}",
           f"argument --setting: {word} is neither an index from 0 nor `start`")
          for word in ["x", "-1"])]),
]


class Warriors(Trial):
    FILES = {"dat.red": "DAT 0\n", "imp.red": "MOV 0, 1\n", "s.csv": FIGHT,
             **{name: (TUNING / name).read_bytes() for name in ["step.red", "step.cert",
                                                               "stone.red"]}}

    def wrong_settings(self, text, count):
        """Returns which of `count` settings are another warrior in their text."""
        self.write("t.red", text)
        path, setting_path = self.folder / "t.red", self.folder / "setting.red"
        template, wrong = tuning_files.Template(path), []
        for setting in range(len(template.values_of_settings)):
            setting_path.write_bytes(warrior.text_of(template, setting))
            expected = assemble(self.program, "--setting", str(setting), str(path))
            result = assemble(self.program, str(setting_path))
            if result != expected or not expected[0]:
                wrong.append(f"setting {setting}: expected {expected}, came {result}")
        found = len(template.values_of_settings)
        return wrong + [f"{found} settings"] * (found != count)

    def test_warriors(self):
        """Makes the text of every setting of the examples, and of those of `PLACES`."""
        for name, count in [("step", 21), ("decoy", 126), ("stone", 273)]:
            text = (TUNING / f"{name}.red").read_bytes()
            self.wrong(f"warriors of {name}", self.wrong_settings(text, count))
        for name, (text, count) in PLACES.items():
            self.wrong(f"ranges: {name}", self.wrong_settings(text, count))
        status, out, err = self.call("cwtune-warrior step.red step.cert")
        cert = tuning_files.Certificate(TUNING / "step.cert")
        template = tuning_files.Template(TUNING / "step.red")
        start = cert.total_of(template.start, cert.fights(None))
        line = (f";strategy cwtune: {template.constants(cert.best)}, total {cert.total}, "
                f"total of START {start}\n")
        self.same("the best setting of a certificate", (
            0, True, note("step.cert.inputs is not there")), (status, line in out, err))

    def test_own_texts(self):
        """Makes texts of templates with own range lines, and an older `;strategy` line."""
        text = (";redcode\n;name N\n;strategy cwtune: old\n;strategy own\n;@tune K -2 2 1 0\n"
                "MOV 0, K\n")
        large = (";strategy own\n;@text K EQU [K] ; own\n;@tune K 0 9999 1 7\n;@tune L 0 999 1 5\n"
                 "MOV L, K\n")
        plain = ";redcode\n;author A\n;name N\n MOV 0, 1"
        for name, of, words, expected in [
            ("a setting", text, "--setting=0", (
                0, ";redcode\n;name N\n;strategy own\n;strategy cwtune: K=-2\nK EQU (-2)\n"
                "MOV 0, K\n", "")),
            ("the template", text, "--setting=4 --template", (0, text.replace("1 0", "1 2"), "")),
            ("START of many settings", large, "--setting=start", (
                0, ";strategy own\n;strategy cwtune: K=7 L=5\nK EQU 7 ; own\nL EQU 5\nMOV L, K\n",
                "")),
            ("many settings", large, "--setting=5", (
                1, "", "refused: t.red: more than 1000000 settings\n")),
            ("a lone label above", ";redcode\n MOV 0, 1\ngo\n;@tune K 1 3 1 2\n JMP go, K\n",
             "--setting=0", (0, ";redcode\n;strategy cwtune: K=1\nK EQU 1\n MOV 0, 1\ngo\n"
                             " JMP go, K\n", "")),
            ("a count above", "FOR K\n MOV 0, 1\nROF\n;@tune K 1 3 1 2\n",
             "--setting=0", (0, ";strategy cwtune: K=1\nK EQU 1\nFOR K\n MOV 0, 1\nROF\n", "")),
            ("a text without a `;strategy` line", plain, "--setting=0", (
                0, plain.replace(";name", ";strategy cwtune: -\n;name"), "")),
        ]:
            self.write("t.red", of)
            self.same(name, expected, self.call(f"cwtune-warrior {words} t.red"))

    def test_names(self):
        """Refuses an adapted copy of a template by the name of the template."""
        self.write("t.red", ";@tune K 0 9999 1 7\n;@tune L 0 999 1 5\nbomb EQU DAT #K, #L\nbomb\n")
        for words in "--setting=5", "--setting=start --template":
            status, _, err = self.call(f"cwtune-warrior {words} t.red")
            self.same(words, (1, "refused: t.red: more than 1000000 settings"),
                      (status, err.splitlines()[-1]))

    def test_settings(self):
        """Counts and finds the settings of a template, which are not kept."""
        self.write("three.red", ";@tune A 0 2 1 1\n;@tune B 5 9 2 7\n;@tune C 0 0 1 0\nDAT A, B\n")
        template = tuning_files.Template(self.folder / "three.red")
        values = list(template.values_of_settings)
        self.same("the values of all settings", (
            [(a, b, 0) for a in range(3) for b in (5, 7, 9)], values, list(range(9)), 4), (
            values, [template.values_of_settings[index] for index in range(9)],
            list(map(template.values_of_settings.index, values)), template.start))

    def test_refusals(self):
        for name, text, begin in [
            ("kept.red", b";@text K EQU [K]\n;@tune K 0 1 1 0\n;@text DAT [L_choice:3,5]\n"
             b";@tune L_choice 0 1 1 0\nDAT 3\n",
             "refused: kept.red, line 3: what follows it is not what cwtune-vary wrote there"),
            ("list.red", b";@text DAT [L_choice:3,5]\n;@tune L_choice 0 2 1 0\nDAT 3\n",
             "refused: list.red: L_choice is an index of a list of 2, from 0"),
            ("lists.red", b";@text DAT [L:3,5]\n;@text DAT [L:1,2,3,4]\n;@tune L 0 3 1 0\nDAT 3\n",
             "refused: lists.red: L is an index of a list of 2, from 0"),
            ("chain.red", CHAIN, "refused: with its values the text does not assemble: "
             "Asm line "),
            ("refused.red", b"DAT 1/0\n", "refused: setting 0 does not assemble: Asm line 1 "),
        ]:
            self.write(name, text)
            status, out, err = self.call(f"cwtune-warrior {name} --setting 0")
            self.same(f"{name} is refused", (1, "", begin), (status, out, err[:len(begin)]))
        self.refused(WRONG_WORDS)

    def test_pmars_notes(self):
        refused, without = "pMARS refuses line", "without an operand"
        for text, lines in [
            (b"DAT 0\nx: nop\n", [f"{refused} 3: NOP {without}"]),
            (b"DAT.F\nx:NOP\nDAT ; nothing\n", [
                f"{refused} 2: DAT {without}", f"{refused} 3: NOP {without}",
                f"{refused} 4: DAT {without}"]),
            (b"no EQU 0\nfor no\nhow to fight dat\nrof\nDAT 0, 1\nEND\nDAT\n", []),
            (b"DAT 0\nDAT 1" + b" " * 251 + b"\n", ["pMARS cuts line 3 at 255 bytes"]),
        ]:
            self.write("t.red", text)
            status, _, err = self.call("cwtune-warrior t.red --setting 0")
            self.same(text, (0, "".join(f"note: {line}\n" for line in lines)), (status, err))

    def test_faults(self):
        """Runs commands with stand-ins for `cwtune` that note something, and that are killed."""
        for name, text, expected in [
            ("notes", "echo '  a note' >&2; echo 'error: a fault' >&2; exit 2",
             (2, "", "error: a fault\n  a note\n")),
            ("dies", "kill -9 $$", (3, "", "failed: ./dies ended by signal 9\n")),
        ]:
            self.write_program(name, text)
            self.same(f"a program that {name}", expected, self.call(
                f"cwtune-warrior step.red --setting=3 --program=./{name}"))
        self.same("a program in the folder, named alone", (2, "", "error: a fault\n  a note\n"),
                  self.call("cwtune-warrior step.red --setting=3 --program=notes"))

    def tuned(self, template, *words):
        """Tunes a template against an imp, or as `words` say."""
        self.write("t.red", template)
        self.tune(*(words or ["--all", "t.red", "s.csv", "cert", "imp.red"]))

    def test_holdouts(self):
        """Plays fresh fights of two warriors that win all, since the other one dies at once."""
        self.tuned(";@tune K 1 2 1 1\nMOV 0, K\n", "--all", "t.red", "s.csv", "cert", "dat.red")
        lines = "".join(f"setting {setting}, rank {setting + 1}: tuning 3 of 3 (100.0%), fresh 60 "
                        f"of 60 (100.0% +- 0.0) K={setting + 1}\n" for setting in (0, 1))
        # Of two warriors that die at once the one that moves second wins: ten of twenty fights.
        for words, more in [
            ("", "setting 0 is START: the tuning found nothing better\n"),
            ("--against dat.red", "dat.red: fresh 30 of 60 (50.0% +- 11.5)\n"
             "over dat.red, setting 0: +50.0% +- 11.5, a gain\n"),
        ]:
            self.same(f"cwtune-holdout {words}", (0, f"{lines}{more}", ""), self.call(
                f"cwtune-holdout {words} --rounds 20 t.red cert dat.red"))
        status, out, err = self.call("cwtune-holdout --rounds 20 t.red cert none.red")
        self.same("cwtune-holdout with no opponent", (3, "", "failed: none.red"),
                  (status, out, err.rpartition(": ")[0]))

    def test_gains(self):
        """Plays fresh fights of a setting that lives, and of START, which dies against an imp."""
        self.tuned(";@tune K 0 1 1 0\nJMP 1-K\n")
        self.same("a gain", (
            0, "setting 1, rank 1: tuning 1 of 3 (33.3%), fresh 20 of 60 (33.3% +- 0.0) K=1\n"
            "setting 0, rank 2: tuning 0 of 3 (0.0%), fresh 0 of 60 (0.0% +- 0.0) K=0\n"
            "START, setting 0: tuning 0 of 3 (0.0%), fresh 0 of 60 (0.0% +- 0.0) K=0\n"
            "over START, setting 1: +33.3% +- 0.0, a gain\n", ""),
            self.call("cwtune-holdout --schedule s.csv --rounds 20 t.red cert imp.red"))
        status, out, _ = self.call("cwtune-holdout --rounds 1 t.red cert imp.red")
        self.same("one fight, whose error is not known", (
            0, "over START, setting 1: +33.3% +- 0.0, no difference that these fights show"),
            (status, out.splitlines()[-1]))

    def test_json(self):
        self.tuned(";@tune K 0 2 1 0\nJMP 1-1/(K!=2)\n")
        made = {"opponent": 0, "wins": 0, "ties": 1, "losses": 0, "score": 1, "greatest": 3,
                "not_played": 0}
        best = {"setting": 0, "values": {"K": 0}, "total": 1, "opponents": [made]}
        self.same("cwtune-scores --json", {
            "greatest": 3, "best": best, "start": best, "played_all": 2, "dropped": 0, "exact": 2,
            "ranking": [{"setting": 0, "total": 1, "values": {"K": 0}}],
            "constants": [{"name": "K", "values": 3, "choices": 1, "same": 0, "not_known": 0}]},
            json.loads(self.call("cwtune-scores --json --top=1 cert").out))
        self.same("cwtune-scores --csv", "setting,row,total,K\n0,all,1,0\n1,all,1,1\n"
                  "2,refused,,2\n", self.call("cwtune-scores --csv cert").out)
        player = {"setting": 0, "rank": 1, "values": {"K": 0}, "total": 1,
                  "fresh": {"points": 4, "fights": 4, "percent": 100 * (4 / 12), "error": 0.0}}
        status, out, _ = self.call("cwtune-holdout --json --top=1 --rounds=4 --against=imp.red "
                                   "t.red cert imp.red")
        words = "no difference that these fights show"
        self.same("cwtune-holdout --json", (0, {
            "greatest": 3, "players": [player], "start": player,
            "against": player["fresh"],
            "gain": {"over": "imp.red", "setting": 0, "percent": 0.0, "error": 0.0, "words": words},
            "dropped": 0, "exact": 2}), (status, json.loads(out)))

    def test_ranks(self):
        """Plays fresh fights of exact ranks, and of one that a dropped setting may come before."""
        self.same("more than can be kept", "only the first of the ranking is exact; cwtune tune "
                  "--keep 1000 makes the first 1000 exact", tuning_files.exactness_text(1, 2000))
        self.write("s.csv", FIGHT + "0,4100,c\n0,4200,o\n")
        fresh = "cwtune-holdout --rounds 20 --schedule s.csv t.red cert imp.red"
        for options, names, last_line in [
            ([], ["setting 1, rank 1", "setting 0"],
             "1 setting was dropped, so only the first of the ranking is exact; cwtune tune --keep "
             "5 makes the first 5 exact"),
            (["--keep=3"], ["setting 1, rank 1", "setting 0, rank 2", "setting 2, rank 3"],
             "setting 1 is START: the tuning found nothing better"),
        ]:
            self.tuned(";@tune K 0 2 1 1\nJMP 1-K\n", *options, "t.red", "s.csv", "cert", "imp.red")
            status, out, _ = self.call(fresh)
            lines = out.splitlines()
            self.same(f"ranks in a certificate of tune {options}", (0, names, last_line), (
                status, [line.partition(":")[0] for line in lines if ": tuning " in line],
                lines[-1]))
