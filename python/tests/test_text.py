"""Reading and printing: a round trip is the identity up to comments and layout; what is refused is refused alike."""

import re
import unittest

from tests.places import WSC, answer, texts

import wavescalar as ws
from wavescalar.text import lexemes_of


def plain(text: str) -> list[list[str]]:
    """The lexemes of each line, with numbers in place of names, and without zeros in front of them."""
    lines = [lexemes_of(line.removesuffix("\r")) for line in ws.sections(text)[0].split("\n")]
    lines = [line for line in lines if line]
    numbers: dict[str, dict[str, str]] = {"block": {}, "instr": {}}
    count = {"block": 0, "instr": 0}
    for line in lines:
        kind, at = ("instr", 0) if line[1:2] == [":"] else ("block", 1)
        if kind == "instr" or line[0] == "block":
            count[kind] += 1
            numbers[kind][line[at]] = str(count[kind])
    made = []
    for line in lines:
        if line[1:2] == [":"]:
            turn = ["instr", "", "", *["instr"] * (len(line) - 3)]
        else:
            rest = {"if": ["instr", "block", "block"], "send": ["instr"], "pad": ["", *["instr"] * len(line)]}
            turn = ["", *rest.get(line[0], []), *["block" if line[0] in ("go", "send", "block") else ""] * len(line)]
        line = [numbers[kind].get(word, word) if kind and not word.isdigit() else word
                for word, kind in zip(line, turn, strict=False)]
        made.append([str(int(word)) if word.isdigit() else word for word in line])
    return made


class Texts(unittest.TestCase):
    def test_round_trips(self) -> None:
        read = refused = sound = 0
        for name, text in texts().items():
            with self.subTest(name):
                told = answer(["check"], text).strip()
                try:
                    image = ws.read(text)
                except ws.Refused as fault:
                    self.assertEqual(fault.answer, told)
                    refused += 1
                    continue
                read += 1
                self.assertIsNone(re.match(r"refused \d+ ", told), told)
                printed = ws.print(image)
                if told.startswith("refused "):
                    self.places(text, told)
                self.assertEqual(plain(printed), plain(text))
                self.assertEqual(ws.read(printed), image)
                self.assertEqual(ws.print(ws.read(printed)), printed)
                if told == "sound":
                    # the program itself sees the same image in both
                    sound += 1
                    words = ["trace", "--budget", "0"]
                    own = answer(words, ws.sections(text)[0])
                    self.assertEqual(answer(words, printed), own)
                    self.assertEqual(ws.print(ws.unnamed(image)), ws.sections(own)[0])
        print(f"{read} texts went round, {sound} of them sound; {refused} refused as wsc check does")
        self.assertGreater(read, 40)

    def places(self, text: str, told: str) -> None:
        """A refusal names the line of the instruction or block that its first number other than 0 names."""
        with self.assertRaises(ws.Refused) as caught:
            ws.check(text, wsc=WSC)
        it = caught.exception
        self.assertEqual(it.answer, told)
        if it.rule == "input":
            return
        number = it.block if it.rule in ("shape", "pending") else it.instruction
        wanted = next((n for n in (it.numbers[:1] if it.rule in ("shape", "port") else it.numbers) if n), None)
        self.assertEqual(number, wanted)
        if number:
            words = lexemes_of(it.text or "")
            own = words[1] if it.rule in ("shape", "pending") else words[0]
            self.assertEqual(own, (it.block_name or it.name) or own)
            self.assertEqual(int(own) if own.isdigit() else number, number)

    def test_limits(self) -> None:
        """The table of limits in docs/REFUSALS.md, but for the longest texts."""
        out = "wavescalar 1\nwave 1\nblock 1\n1: out <., {}, .>.{}\n"
        for text in (
            "wavescalar 1\n" + "array a 1\n" * 257, "wavescalar 1\n" + "hidden 65536\n" * 33,
            "wavescalar 1\narray " + "a" * 65 + " 1\n", "wavescalar 2\nwave 1\nblock " + "b" * 65 + "\n",
            "wavescalar 1\nwave 1\nblock 1\npad 16 1.0\n", "wavescalar 1\nwave 1\nblock 1\n1: send 16\n",
            "wavescalar 1\nwave 1\nblock 1\n1: advance ->" + " 2.0" * 9 + "\n",
            "wavescalar 1\nwave 1\nblock 1\n1: take 8 <., 1, .>.1\n", out.format(1 << 32, 1), out.format(1, 1 << 32),
            "wavescalar 1\nwave 1\nblock 1\n1: const 0 ->\nsend 1" + " 1" * 1025 + "\n",
            "wavescalar 2\nwave 1\nblock 1\n1: const 0 ->\nsend 1" + " 1" * 2049 + "\n",
            "wavescalar 1\nwave 1\n" + "".join(f"block {k}\nstop\n" for k in range(1, 65538)),
            "wavescalar 3\n", "wavescalar 99999999999999999999\n", "", "wavescalar 1", "x y z\n",
            "wavescalar 1\n\x0b\n",
        ):  # fmt: skip
            with self.subTest(text[:60]), self.assertRaises(ws.Refused) as caught:
                ws.read(text)
            self.assertEqual(caught.exception.answer, answer(["check"], text).strip())

    def test_findings(self) -> None:
        """All faulty lines are told, each with its place, and the one that `wsc check` names is among them."""
        text = ("wavescalar 2\nwave 1\nblock b\npad 0 p.0\np: advance -> q.0 r.0\nq: cnst 1 -> r.0\n"
                "r: merge -> \u00b2.0\nq: out <., 1, .>.1\ngo c\nend\n")
        found = [(it.line, it.column, it.rule) for it in ws.findings(text)]
        self.assertEqual(found, [(6, 4, "line"), (7, 13, "line"), (8, 1, "name"), (9, 4, "name")])
        self.assertIn(answer(["check"], text).strip(), [it.check for it in ws.findings(text)])
        self.assertEqual(ws.findings(text.partition("q:")[0] + "q: merge -> r.0\nr: merge ->\nstop\nend\n"), [])

    def test_labels_that_are_none(self) -> None:
        """A destination whose label isn't one of the version is a fault of its line, and of no line behind it."""
        for version, label in ((1, "2x.0"), (1, "x.0"), (1, "2.0 2y.0"), (2, "2x.0"), (2, "2.0 2y.0")):
            text = f"wavescalar {version}\nwave 1\nblock 1\npad 0 1.0\n1: advance -> {label}\n2: halt <., 1, .>.1\nstop\nend\n"
            with self.subTest(version=version, label=label):
                self.assertEqual([(it.line, it.rule) for it in ws.findings(text)], [(5, "line")])
                self.assertEqual(answer(["check"], text).strip(), "refused 5 line")
                with self.assertRaises(ws.Refused):
                    ws.read(text)


if __name__ == "__main__":
    unittest.main()
