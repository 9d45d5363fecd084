"""Tests of bench and its loads, with programs that print what they were made to print."""

import io
import sys
import tempfile
import unittest
from contextlib import redirect_stderr, redirect_stdout
from pathlib import Path

sys.path.insert(0, str(Path(__file__).resolve().parent))
sys.dont_write_bytecode = True

import bench  # noqa: E402
import files  # noqa: E402
import loads  # noqa: E402

SCALE = 0.001
PROGRAM = """\
#!{python}
import sys
sys.stdin.buffer.read()
print({summary!r} if "--summary" in sys.argv else {text!r})
sys.exit({status})
"""
ENGINE = """\
#!{python}
import sys
sys.stdin.buffer.read()
print(*{counts!r}, sep="\\n")
print("best_ns 2000000", "median_ns 2500000", "datagrams_per_s 400", "ns_per_sample 7", sep="\\n", file=sys.stderr)
sys.exit({status})
"""


class Bench(unittest.TestCase):
    def setUp(self):
        room = tempfile.TemporaryDirectory()
        self.addCleanup(room.cleanup)
        self.room = Path(room.name)

    def written(self, name):
        """The records of a load, its number of datagrams, and what is due."""
        path = self.room / name
        count, due = loads.write(loads.LOADS[name], SCALE, path)
        return list(files.records_in(path.read_bytes())), count, due

    def program(self, due, text="text", status=0):
        """A program that counts what is due."""
        status_line = "status 0 {0[matched]} {0[matched]} {0[incompatible]} - {0[lost]} {0[samples]}".format(due)
        summary = "\n".join(["0:1 answer - 00"] * due["answers"] + [status_line])
        return self.script(PROGRAM.format(python=sys.executable, summary=summary, text=text, status=status))

    def engine(self, count, due, status=0):
        """An engine that counts what is due of a load of this many datagrams, and took 2 and 2.5 milliseconds."""
        counts = [f"{name} {number}" for name, number in bench.engine_due(count, due).items()]
        return self.script(ENGINE.format(python=sys.executable, counts=counts, status=status))

    def script(self, octets):
        """The path of a program with this source."""
        path = self.room / f"program{len(list(self.room.iterdir()))}"
        path.write_text(octets, encoding="ascii")
        path.chmod(0o755)
        return str(path)

    def measured(self, *words):
        """The status, the columns of each line that bench prints, and what it says of a difference."""
        out, err = io.StringIO(), io.StringIO()
        with redirect_stdout(out), redirect_stderr(err):
            status = bench.main([*words, "--scale", str(SCALE), "--repeat", "2"])
        return status, [line.strip("| ").split(" | ") for line in out.getvalue().splitlines()], err.getvalue()

    def test_a_row_has_the_numbers_of_its_columns(self):
        _, count, due = self.written("lossy")
        program = self.program(due)
        words = ("--against", program, "--load", "lossy", "--command", "replay", "dump", "--workers", "1,3")
        status, table, said = self.measured(program, *words)
        self.assertEqual((status, said, table[0]), (0, "", [*bench.COLUMNS, *bench.RATIOS]))
        rows = (("replay", "1"), ("replay", "3"), ("dump", "-"))
        self.assertEqual([row[:4] for row in table[2:]], [["lossy", *row, str(count)] for row in rows])
        for row in table[2:]:
            middle, least, processor, memory, rate, *ratios = map(float, row[4:])
            self.assertTrue(0 < least <= middle and 0 < processor and 0 < memory, row)
            self.assertAlmostEqual(rate * middle / count, 1, delta=0.3)
            self.assertTrue(all(0.05 < each < 20 for each in ratios), row)

    def test_another_output_is_a_difference(self):
        due = self.written("small")[2]
        first, other = self.program(due), self.program(due, "texts")
        status, table, said = self.measured(first, "--against", other, "--load", "small", "--command", "dump")
        self.assertEqual((status, len(table)), (1, 2))
        self.assertEqual(said, f"bench: small: {first} dump - has another output than {other}\n")

    def test_a_count_that_is_not_due_is_a_difference(self):
        due = self.written("discovery")[2]
        due["samples"] += 1
        due["answers"] -= 1
        program = self.program(due)
        status, table, said = self.measured(program, "--load", "discovery")
        self.assertEqual((status, len(table)), (1, 2))
        self.assertIn(f"counts answers {due['answers']}, due {due['answers'] + 1}; samples 1, due 0\n", said)

    def test_a_run_that_fails_is_a_difference(self):
        program = self.program(self.written("small")[2], status=5)
        status, _, said = self.measured(program, "--load", "small")
        self.assertEqual(status, 1)
        self.assertIn("--summary has status 5", said)

    def test_the_engine_has_a_table_of_its_own(self):
        _, count, due = self.written("lossy")
        engine = self.engine(count, due)
        words = ("--engine", engine, "--load", "lossy", "--workers", "1,4", "--command")
        status, table, said = self.measured("none", *words)
        self.assertEqual((status, said, table[0]), (0, "", [*bench.ENGINE_COLUMNS]))
        row = [str(count), str(due["samples"]), "2.5", "2.0", "400", "7"]
        self.assertEqual(table[2:], [["lossy", "1", *row], ["lossy", "4", *row]])
        status, table, said = self.measured(self.program(due), *words, "explain")
        self.assertEqual((status, said, table[0], table[2][:2]), (0, "", [*bench.COLUMNS], ["lossy", "explain"]))
        self.assertEqual(table[3:], [[*bench.ENGINE_COLUMNS], ["---"] * 8, ["lossy", "1", *row], ["lossy", "4", *row]])

    def test_only_the_engine_gets_a_load_of_more_readers(self):
        _, count, due = self.written("robot")
        status, table, said = self.measured("none", "--engine", self.engine(count, due), "--load", "robot")
        self.assertEqual((status, said, [row[:3] for row in table[-3:]]),
                         (0, "", [["robot", workers, str(count)] for workers in "124"]))
        self.assertEqual(self.measured("none", "--load", "robot")[0::2], (0, ""))

    def test_a_count_of_the_engine_that_is_not_due_is_a_difference(self):
        _, count, due = self.written("robot")
        engine = self.engine(count + 1, due)
        status, _, said = self.measured("none", "--engine", engine, "--load", "robot")
        self.assertEqual(status, 1)
        self.assertIn(f"counts datagrams {count + 1}, due {count}; events {count + 1}, due {count}\n", said)
        status, _, said = self.measured("none", "--engine", self.engine(count, due, 6), "--load", "robot")
        self.assertEqual(status, 1)
        self.assertIn("--repeat 2 has status 6: best_ns", said)

    def test_a_load_has_the_datagrams_that_it_says_each_time(self):
        for name in loads.LOADS:
            records, count, due = self.written(name)
            self.assertEqual((len(records), due), (count, self.written(name)[2]), name)
            self.assertEqual(records, self.written(name)[0], name)
            self.assertTrue(all(datagram.startswith(b"RTPS") for _, datagram in records), name)

    def test_the_counts_of_small_loads_are_those_made_by_hand(self):
        # 20 turns of 16 writers, and 15 participants with a writer each that are announced.
        records, _, due = self.written("small")
        self.assertEqual((len(records), due), (20 * 16 + 30, {"matched": 128, "samples": 8 * 20 * 16}))
        # One sample of 1,000,000 octets: 744 fragments of 1,344 octets, and one of 64.
        records, _, due = self.written("fragments")
        self.assertEqual((len(records), due), (745, {"matched": 8, "samples": 8}))
        # Two participants, each with ten writers, and 150 times more with a heartbeat.
        records, _, due = self.written("discovery")
        self.assertEqual((len(records), due), (2 * 311, {"matched": 16, "incompatible": 16, "answers": 300}))
        self.assertEqual([moment for moment, _ in records], [*range(2 * 311)])
        # 5 turns of 64 writers, each of a participant that announces itself and its writer; no turn has heartbeats.
        records, _, due = self.written("robot")
        self.assertEqual((len(records), due), (64 * 7, {"matched": 64, "samples": 320}))


if __name__ == "__main__":
    unittest.main()
