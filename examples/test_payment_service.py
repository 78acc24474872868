#!/usr/bin/env python3
"""Tests payment_service.py without a ledger: a small program prints a recorded answer in its place.

    examples/test_payment_service.py
"""
import os
import subprocess
import sys
import tempfile
import unittest
from pathlib import Path

sys.dont_write_bytecode = True
sys.path.insert(0, str(Path(__file__).resolve().parent))

import payment_service

SERVICE = Path(payment_service.__file__)
# what the ledger printed for the script of the example
RECORDED = """\
clock 1000000001
clock 2000000001
clock 3000000001
clock 4000000001
clock 5000000001
clock 6000000001
0 exceeds_credits
clock 7000000001
clock 8000000001
clock 9000000001
clock 10000000001
clock 11000000001
expired 1
clock 132000000001
0 pending_transfer_expired
clock 133000000001
account id=1 debits_pending=0 debits_posted=10000 credits_pending=0 credits_posted=0 user_data_128=0 user_data_64=0 user_data_32=0 ledger=978 code=20 flags=0 timestamp=1000000001
account id=2 debits_pending=0 debits_posted=0 credits_pending=2000 credits_posted=4550 user_data_128=0 user_data_64=0 user_data_32=0 ledger=978 code=20 flags=0 timestamp=2000000001
account id=3 debits_pending=2000 debits_posted=4550 credits_pending=0 credits_posted=10000 user_data_128=0 user_data_64=0 user_data_32=0 ledger=978 code=10 flags=2 timestamp=3000000001
rows 3
"""
SHOWN = """\
4, alice to shop: exceeds_credits
holds: 1 expired
9, capture of 7: pending_transfer_expired
bank    -100.00, of which 0.00 held
shop      45.50, of which 0.00 held
alice     54.50, of which 20.00 held
"""
# takes the words `run FILE`, keeps a copy of that file beside itself, and prints what lies beside it too
STAND_IN = """\
#!/bin/sh
cd "$(dirname "$0")" || exit 9
test "$1" = run && test $# = 2 && cp "$2" script || exit 9
cat answer
cat fault >&2
exit {status}
"""


class Answers(unittest.TestCase):
    def test_each_command_has_an_answer(self):
        text = "0 exists\n3 exceeds_credits\nclock 7\nexpired 2\nclock 9\nrefused clock_exhausted\npublished\ncompacted\nrows 0\n"
        answers = payment_service.answers_in(text)
        self.assertEqual([answer.last[0] for answer in answers], ["clock", "clock", "refused", "published", "compacted", "rows"])
        self.assertEqual(answers[0].results, {0: "exists", 3: "exceeds_credits"})
        self.assertEqual(answers[0].last, ("clock", "7"))
        self.assertEqual((answers[1].expired, answers[1].last), (2, ("clock", "9")))
        self.assertEqual(answers[2].last, ("refused", "clock_exhausted"))

    def test_records_are_read_by_their_fields(self):
        text = "balance debits_pending=1 debits_posted=2 credits_pending=3 credits_posted=4 timestamp=5\nrows 1\n"
        (answer,) = payment_service.answers_in(text)
        wanted = {"debits_pending": 1, "debits_posted": 2, "credits_pending": 3, "credits_posted": 4, "timestamp": 5}
        self.assertEqual(answer.records, [wanted])

    def test_other_lines_are_faults(self):
        for text in ("hello\n", "rows 1\n", "\n", "account id\nrows 1\n", "clock 7\nrows many\n"):
            with self.assertRaises(ValueError, msg=text):
                payment_service.answers_in(text)

    def test_a_refused_command_is_said(self):
        (answer,) = payment_service.answers_in("refused clock_exhausted\n")
        self.assertEqual(payment_service.said("1, a to b", answer), ["1, a to b: refused, clock_exhausted"])


class Runs(unittest.TestCase):
    def setUp(self):
        room = tempfile.TemporaryDirectory()
        self.addCleanup(room.cleanup)
        self.folder = Path(room.name)

    def program(self, answer, fault="", status=0):
        """A program that prints this and ends so."""
        (self.folder / "answer").write_text(answer)
        (self.folder / "fault").write_text(fault)
        program = self.folder / "ledger"
        program.write_text(STAND_IN.format(status=status))
        program.chmod(0o755)
        return program

    def test_balances_are_shown(self):
        words = [sys.executable, "-B", str(SERVICE)]
        environment = {**os.environ, "TIGERFOREST": str(self.program(RECORDED))}
        run = subprocess.run(words, env=environment, capture_output=True, text=True)
        self.assertEqual((run.returncode, run.stdout, run.stderr), (0, SHOWN, ""))

    def test_the_program_gets_the_whole_script(self):
        service = payment_service.example()
        service.run(self.program(RECORDED))
        texts = [text for _, text in service.commands]
        self.assertEqual((self.folder / "script").read_text(), "".join(texts) + "lookup_accounts 1 2 3\n")
        self.assertEqual(texts[4].splitlines()[1], "+ id=2 debit_account_id=3 credit_account_id=2 amount=6000 ledger=978 code=1 timeout=3600 flags=pending")
        self.assertEqual(texts[5], "transfers 6000000000\n+ id=3 pending_id=2 amount=4550 flags=post_pending_transfer\nend\n")

    def test_a_program_that_fails_is_said(self):
        with self.assertRaisesRegex(RuntimeError, "status 1: bad line 1 column 1$"):
            payment_service.example().run(self.program("", fault="bad line 1 column 1\n", status=1))

    def test_an_answer_that_is_cut_short_is_a_fault(self):
        with self.assertRaisesRegex(ValueError, "14 commands, but 1 answers"):
            payment_service.example().run(self.program("clock 1000000001\n"))


if __name__ == "__main__":
    unittest.main()
