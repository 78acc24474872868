#!/usr/bin/env python3
"""A small payment service over the ledger: it writes a script, has the ledger run it, and reads the answer.

    examples/payment_service.py [PROGRAM]   without PROGRAM the one that TIGERFOREST names, or ./tigerforest of this repository

The program is called as `PROGRAM run FILE`, and begins with an empty ledger each time: so the service gathers its commands,
runs all of them at once and then looks through the answers. examples/test_payment_service.py tests it without a ledger.
"""
import os
import subprocess
import sys
import tempfile
from pathlib import Path

TOP = Path(__file__).resolve().parent.parent
SECOND = 1_000_000_000
EUROS, CUSTOMER, OTHER, PAYMENT = 978, 10, 20, 1


class Answer:
    """What one command answered: its results by the events' places, its records, and its last line as a word and a value."""

    def __init__(self):
        self.results, self.records, self.expired, self.last = {}, [], 0, None

    def take(self, line):
        """Takes a line in. The last one of an answer is `clock C`, `rows K`, `refused REASON` or a word by itself."""
        word, _, rest = line.partition(" ")
        if word in ("account", "transfer", "balance"):
            self.records.append({name: int(value) for name, value in (field.split("=") for field in rest.split())})
        elif word == "expired":
            self.expired = int(rest)
        elif word.isdigit():
            self.results[int(word)] = rest
        elif word == "rows" and int(rest) != len(self.records):
            raise ValueError(f"{len(self.records)} records before the line {line!r}")
        elif word in ("clock", "rows", "refused", "published", "compacted"):
            self.last = (word, rest)
        else:
            raise ValueError(f"no line of an answer: {line!r}")


def answers_in(text):
    """The answers in what the program printed, one for each command."""
    answers, answer = [], Answer()
    for line in text.splitlines():
        answer.take(line)
        if answer.last:
            answers.append(answer)
            answer = Answer()
    return answers


def run_script(program, script):
    """What the program prints for a script."""
    with tempfile.TemporaryDirectory() as folder:
        path = Path(folder) / "payments.script"
        path.write_text(script)
        run = subprocess.run([str(program), "run", str(path)], stdin=subprocess.DEVNULL, capture_output=True, text=True)
    if run.returncode != 0:
        raise RuntimeError(f"{program} ended with status {run.returncode}: {run.stderr.strip()}")
    return run.stdout


def said(what, answer):
    """The lines about a command that didn't do all, or that expired something."""
    reasons = [f"refused, {answer.last[1]}"] if answer.last[0] == "refused" else []
    reasons += answer.results.values()
    if answer.expired:
        reasons.append(f"{answer.expired} expired")
    return [f"{what}: {reason}" for reason in reasons]


class PaymentService:
    """Accounts by name, and transfers between them. Each call is a batch of its own, one second after the one before."""

    def __init__(self):
        # an account's id is its place among the names, counted from 1; a command is its text and what it is called
        self.names, self.commands, self.moment, self.transfers = [], [], SECOND, 0

    def add(self, what, text):
        self.commands.append((what, text))
        self.moment += SECOND

    def open_account(self, name, code, flags=0):
        self.names.append(name)
        self.add(f"account of {name}", f"accounts {self.moment}\n+ id={len(self.names)} ledger={EUROS} code={code} flags={flags}\nend\n")

    def transfer(self, what, fields):
        """Sends a transfer, and gives its id."""
        self.transfers += 1
        self.add(f"{self.transfers}, {what}", f"transfers {self.moment}\n+ id={self.transfers} {fields}\nend\n")
        return self.transfers

    def pay(self, payer, payee, amount, more=""):
        debit, credit = self.names.index(payer) + 1, self.names.index(payee) + 1
        fields = f"debit_account_id={debit} credit_account_id={credit} amount={amount} ledger={EUROS} code={PAYMENT}{more}"
        return self.transfer(f"{payer} to {payee}", fields)

    def hold(self, payer, payee, amount, seconds):
        return self.pay(payer, payee, amount, f" timeout={seconds} flags=pending")

    def capture(self, hold, amount):
        return self.transfer(f"capture of {hold}", f"pending_id={hold} amount={amount} flags=post_pending_transfer")

    def release(self, hold):
        return self.transfer(f"release of {hold}", f"pending_id={hold} flags=void_pending_transfer")

    def wait(self, seconds):
        """Lets time go by. What has expired by then is given back."""
        self.moment += seconds * SECOND
        self.add("holds", f"pulse {self.moment} 8190\n")

    def run(self, program):
        """Runs all of it, and gives the lines to show: what wasn't done and why, and then each balance."""
        look_up = f"lookup_accounts {' '.join(str(place + 1) for place in range(len(self.names)))}\n"
        answers = answers_in(run_script(program, "".join(text for _, text in self.commands) + look_up))
        if len(answers) != len(self.commands) + 1:
            raise ValueError(f"{len(self.commands) + 1} commands, but {len(answers)} answers")
        lines = [line for (what, _), answer in zip(self.commands, answers) for line in said(what, answer)]
        return lines + [self.balance(account) for account in answers[-1].records]

    def balance(self, account):
        """A line about an account: what it has, and how much of that is held for others."""
        posted = account["credits_posted"] - account["debits_posted"]
        return f"{self.names[account['id'] - 1]:6} {posted / 100:8.2f}, of which {account['debits_pending'] / 100:.2f} held"


def example():
    """A morning of a small payment service."""
    service = PaymentService()
    for name, code, flags in (("bank", OTHER, 0), ("shop", OTHER, 0), ("alice", CUSTOMER, "debits_must_not_exceed_credits")):
        service.open_account(name, code, flags)
    service.pay("bank", "alice", 100_00)
    service.capture(service.hold("alice", "shop", 60_00, seconds=3600), 45_50)
    service.pay("alice", "shop", 54_51)  # a cent more than she has
    service.release(service.hold("alice", "shop", 54_50, seconds=3600))
    late = service.hold("alice", "shop", 5_00, seconds=60)
    service.hold("alice", "shop", 20_00, seconds=3600)
    service.wait(seconds=120)
    service.capture(late, 5_00)  # its time is over
    return service


if __name__ == "__main__":
    try:
        print("\n".join(example().run(sys.argv[1] if sys.argv[1:] else os.environ.get("TIGERFOREST") or TOP / "tigerforest")))
    except (OSError, RuntimeError, ValueError) as error:
        sys.exit(f"payment_service: {error}")
