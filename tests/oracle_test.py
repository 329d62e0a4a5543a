#!/usr/bin/env python3
"""Holds the oracle to answers worked out by hand from docs/RULES.md."""
import pathlib
import unittest

import oracle

REPOSITORY = pathlib.Path(__file__).resolve().parent.parent


def bytes_of(text):
    return text.replace("|", "\t").encode("latin-1")


def answers(*lines):
    """The answers to some lines, with | for the tab."""
    got = oracle.answers(bytes_of("\n".join(lines) + "\n"))
    return got.decode("latin-1").replace("\t", "|").splitlines()


def loaded(count, species="S", diameter=300):
    return [f"LOG|{tag}|{species}|{diameter}|400|1|YARD" for tag in range(1, count + 1)]


class Lines(unittest.TestCase):
    def refused(self, line, answer):
        self.assertEqual(answers(line), [answer], line)

    def test_length_before_word(self):
        self.refused("X" * 201, "NO|10|0")
        self.refused("X" * 200, "NO|11|0")
        self.refused("LOG|" + "1" * 196, "NO|12|0")
        self.refused("FIND|" + "1" * 195, "NO|13|1")

    def test_word(self):
        for line in ["", "|", "log|1", " OPEN", "OPEN ", "OPEN\r", "OPEN\0", "LO", "LOGS", "\xd6"]:
            self.refused(line, "NO|11|0")

    def test_number_of_fields(self):
        for line in ["OPEN|", "FIND", "FIND|1|", "LIST|S|80", "LOG|1|S|300|400|1", "SAW||"]:
            self.refused(line, "NO|12|0")

    def test_forms_from_the_left(self):
        self.refused("LOG|0|S|300|400|01|X", "NO|13|5")
        self.refused("LOG|0|x|300|400|01|X", "NO|13|2")
        for number in ["", "00", "05", "+5", "-5", " 5", "5 ", "4294967296", "10000000000", "\xb2"]:
            self.refused("FIND|" + number, "NO|13|1")
        for place in ["", "yard", "YARD\r", "SAWS", "S"]:
            self.refused("LOG|1|S|300|400|1|" + place, "NO|13|6")

    def test_limits_from_the_left(self):
        self.refused("LOG|0|S|79|99|0|YARD", "NO|14|1")
        self.refused("LOG|1|S|79|1501|0|YARD", "NO|14|3")
        self.refused("LOG|1|S|1201|1501|0|YARD", "NO|14|3")
        self.refused("LOG|1|S|80|99|0|YARD", "NO|14|4")
        self.refused("LOG|1|S|80|1501|0|YARD", "NO|14|4")
        self.refused("LOG|1|S|80|100|0|YARD", "NO|14|5")
        self.refused("LOG|1|S|1200|1500|201|SAW", "NO|14|5")
        self.refused("LOG|4294967295|S|4294967295|1500|200|SAW", "NO|14|3")
        self.refused("CALL|S|79|99", "NO|14|2")
        self.refused("LIST|S|1201|79", "NO|14|2")
        self.refused("LIST|S|300|79", "NO|14|3")
        self.refused("LIST|S|300|299", "NO|15|3")

    def test_limits_themselves_pass(self):
        low, high = "LOG|1|S|80|100|1|YARD", "LOG|4294967295|D|1200|1500|200|SAW"
        self.assertEqual(answers(low, high), ["OK|1", "OK|4294967295"])

    def test_last_line(self):
        self.assertEqual(oracle.answers(b""), b"")
        self.assertEqual(oracle.answers(b"OPEN"), b"OPEN\t0\n")
        self.assertEqual(oracle.answers(b"OPEN\n\n"), b"OPEN\t0\nNO\t11\t0\n")


class Phases(unittest.TestCase):
    def test_before_open(self):
        calls = ["ARRIVE|1|S|80|100|1", "WITHDRAW|1", "CALL|S|80|100", "SAW|1", "BACK|1", "FIND|1"]
        calls.append("LIST|S|80|80")
        self.assertEqual(answers(*calls), ["NO|20|0"] * 7)

    def test_after_open(self):
        got = answers("OPEN", "OPEN", *loaded(1), "LOG|0|S|300|400|1|YARD")
        self.assertEqual(got, ["OPEN|0", "NO|27|0", "NO|27|0", "NO|14|1"])

    def test_loading(self):
        got = answers(*loaded(241), *loaded(1), "LOG|240|S|300|400|1|YARD", "OPEN")
        self.assertEqual(got[239:], ["OK|240", "NO|32|0", "NO|31|0", "NO|31|0", "OPEN|240"])


class Calls(unittest.TestCase):
    def test_worked_run(self):
        load = ["LOG|5|S|200|400|1|YARD", "LOG|9|S|180|510|2|YARD", "OPEN"]
        got = answers(*load, "CALL|S|170|450", "CALL|S|170|450", "LIST|S|100|300", "BACK|9")
        found = ["LOG|9|S|180|510|2|SAW", "NO|26|0", "LOG|5|S|200|400|1|YARD", "END|1|0", "OK|9"]
        self.assertEqual(got, ["OK|5", "OK|9", "OPEN|2", *found])

    def test_places(self):
        load = ["LOG|1|S|300|400|1|SAW", "LOG|2|S|300|400|1|YARD", "OPEN"]
        calls = ["WITHDRAW|1", "SAW|2", "BACK|2", "SAW|1", "FIND|1", "BACK|1", "WITHDRAW|2", "SAW|2"]
        got = answers(*load, *calls)[3:]
        refused = ["NO|23|0", "NO|24|0", "NO|24|0"]
        self.assertEqual(got, [*refused, "OK|1", "NO|22|0", "NO|22|0", "OK|2", "NO|22|0"])

    def test_full(self):
        arrive = "ARRIVE|7000|P|90|100|3"
        calls = [arrive, "ARRIVE|7|P|90|100|3", "CALL|S|80|100", arrive, "SAW|1", arrive, arrive]
        got = answers(*loaded(240), "OPEN", *calls)[241:]
        sawn = ["LOG|1|S|300|400|1|SAW", "NO|25|0", "OK|1"]
        self.assertEqual(got, ["NO|25|0", "NO|21|0", *sawn, "OK|7000", "NO|21|0"])

    def test_call_keeps_to_its_species(self):
        load = ["LOG|1|S|300|200|1|YARD", "LOG|2|P|300|900|1|YARD", "LOG|3|S|310|500|1|YARD", "OPEN"]
        got = answers(*load, "CALL|S|300|400", "CALL|S|300|400", "CALL|D|80|100")[4:]
        self.assertEqual(got, ["LOG|3|S|310|500|1|SAW", "NO|26|0", "NO|26|0"])

    def test_list_ends(self):
        for count, end in [(99, "END|99|0"), (100, "END|100|0"), (101, "END|100|1")]:
            got = answers(*loaded(count), "OPEN", "LIST|S|300|300")
            self.assertEqual(got[-1], end)
            self.assertEqual(got[-2], f"LOG|{min(count, 100)}|S|300|400|1|YARD")

    def test_list_in_size_order(self):
        load = ["LOG|1|S|300|500|1|YARD", "LOG|2|S|300|400|1|YARD", "LOG|3|S|200|900|1|YARD"]
        got = answers(*load, "LOG|4|P|200|900|1|YARD", "OPEN", "LIST|S|200|300", "LIST|S|201|299")
        listed = [line.split("|")[1] for line in got[5:]]
        self.assertEqual(listed, ["3", "2", "1", "3", "0"])


class Documents(unittest.TestCase):
    def test_example_day(self):
        examples = REPOSITORY / "examples"
        got = oracle.answers((examples / "day.tsv").read_bytes())
        self.assertEqual(got, (examples / "day.out").read_bytes())

    def test_example_day_as_told(self):
        """The last block of docs/FORMAT.md has the lines, the answers and remarks in three columns."""
        told = (REPOSITORY / "docs" / "FORMAT.md").read_text().split("```")[-2].strip("\n").splitlines()
        lines = [line[:30].strip().replace(" ", "|") for line in told]
        got = [line[30:57].strip().replace(" ", "|") for line in told]
        self.assertEqual(answers(*filter(None, lines)), got)


if __name__ == "__main__":
    unittest.main()
