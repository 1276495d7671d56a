#!/usr/bin/env python3
"""Tests tests/must-fail on made-up logs. Run from anywhere: python3 tests/test_must_fail.py"""

import subprocess
import tempfile
import unittest
from pathlib import Path

SCRIPT = Path(__file__).resolve().parent / "must-fail"

# What the kit says of an edit behind its name, as it words it.
FACT = "refused, as it must be: ./proofs/f/Answers.antt:14:13: error: `returns`: `omega`: the goal does not follow from what it read. All"
NOTE = "refused, as it must be: note: src/lib.rt:40:1: it is not proved that what the function ensures holds when it returns (`returns`)"
BARE = "refused, as it must be"
NAME = "refused, as it must be (only because a proof file names what the edit took away, so this says little of the contract: change a value and keep the names): ./proofs/f/Answers.antt:7:17: error: `returns`: record `C` has no field `if-a`"
LIMIT = "refused, as it must be (only by a limit of the prover, which gave no verdict, so this says less of the contract: choose a change that it refuses sooner): steps"
BAD = "BAD EDIT: the prover cannot read the edited text, so no contract was tried: src/lib.rt:13:8: error[unknown-name]"
MISSED = "NOT REFUSED: the crate is still proved with this edit (one that means the same as before cannot be refused: remove it)"
UNSURE = "NOT TRIED: its check was killed, so nothing is known of it: run this again"


def run_script(said):
    """What the script does where the kit says that of each edit of the crate hex, or nothing: its exit status, output and standard error."""
    with tempfile.TemporaryDirectory() as folder:
        lines = ["== hex", "logic=proved functions=2"]
        for edit, words in said.items():
            file = Path(folder, "crates/hex/must-fail", f"{edit}.edit")
            file.parent.mkdir(parents=True, exist_ok=True)
            file.touch()
            lines += [f"rt: must-fail hex/{edit}.edit: {words}"] if words else []
        log = Path(folder, "log")
        log.write_text("\n".join(lines) + "\n2 passed, 0 failed\n", encoding="utf-8")
        done = subprocess.run([SCRIPT, log, "--of", folder], capture_output=True, text=True, check=False)
        return done.returncode, done.stdout, done.stderr


class MustFail(unittest.TestCase):
    """The script as it is called."""

    def test_facts(self):
        """An edit is not named where a fact refused it."""
        self.assertEqual(run_script({"fact": FACT, "note": NOTE, "bare": BARE}), (0, "", ""))

    def test_no_facts(self):
        """An edit is named with what the kit says where no fact refused it."""
        for words in (NAME, LIMIT, BAD, MISSED, UNSURE):
            with self.subTest(words):
                self.assertEqual(run_script({"fact": FACT, "shape": words}), (1, f"hex/shape: {words}\n", ""))

    def test_nothing_said(self):
        """An edit is named where the log does not speak of it."""
        self.assertEqual(run_script({"fact": FACT, "new": None}), (1, "hex/new: nothing is said of it\n", ""))

    def test_no_log(self):
        done = subprocess.run([SCRIPT, "/no/log"], capture_output=True, text=True, check=False)
        message = "must-fail: no /no/log: run .ci/run, or rt must-fail > LOG, first\n"
        self.assertEqual((done.returncode, done.stdout, done.stderr), (2, "", message))


if __name__ == "__main__":
    unittest.main()
