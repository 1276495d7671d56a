#!/usr/bin/env python3
"""Tests ./late as it is called: exit status, output and messages. Run from anywhere: python3 tests/test_late.py

It needs the Rattle kit. The program is proved and built first if it is not the one of the crates that stand here."""

import os
import pty
import re
import shutil
import signal
import subprocess
import sys
import tempfile
import unittest
from pathlib import Path

import test_tools
from test_tools import EXAMPLES, ROOT, SECOND, commands_of, made_plans

LATE = ROOT / "late"
CASE_J = ROOT / "crates/late/stdin"
LINE_J = (ROOT / "crates/late/stdout").read_text()


def setUpModule():
    """Builds the second program, and the proved one."""
    test_tools.setUpModule()
    subprocess.run([LATE], input=b"", stdout=subprocess.DEVNULL, check=False)


def shell(command, cwd=ROOT, **settings):
    """What a command does in a shell: its exit status, its output and its standard error."""
    environment = dict(os.environ, **settings)
    done = subprocess.run(["bash", "-c", command], cwd=cwd, env=environment, capture_output=True, text=True, timeout=900, check=False)
    return done.returncode, done.stdout, done.stderr


def answered(plan):
    """What ./late does with a plan: its exit status and its output."""
    done = subprocess.run([LATE], input=plan, capture_output=True, check=False)
    return done.returncode, done.stdout


def field(tag, value):
    """A field of a plan."""
    return bytes([tag]) + len(value).to_bytes(2, "big") + value


def fullest():
    """A plan that fills every limit but its bytes: 16 controllers, 64 tasks, 16 of them on one, 32 paths of 16 tasks; accepted."""
    controllers = [field(0x10, bytes([c, 1])) for c in range(16)]
    on = [0] * 16 + [1 + k % 15 for k in range(48)]
    cost = (1).to_bytes(4, "big") * 2
    tasks = [
        field(0x20, bytes([on[k], k]) + cost + (1_000_000_000).to_bytes(4, "big") + (0).to_bytes(4, "big"))
        if k % 16 == 0
        else field(0x21, bytes([on[k], k]) + cost + bytes([k - 1]))
        for k in range(64)
    ]
    chains = [bytes(range(first, first + 16)) for first in range(0, 64, 16)]
    paths = [field(0x30, (100).to_bytes(4, "big") + chains[q % 4]) for q in range(32)]
    return field(0x01, bytes([1, 16, 64, 32])) + b"".join(controllers + tasks + paths)


class Answers(unittest.TestCase):
    """Status 0 is a report, 1 a refusal."""

    def assert_as_second(self, plan, status):
        """The line is the second program's, and the status the one given."""
        line = subprocess.run([SECOND], input=plan, stdout=subprocess.PIPE, check=True).stdout
        self.assertEqual(answered(plan), (status, line))

    def test_report(self):
        self.assertEqual(shell(f"./late < {CASE_J}"), (0, LINE_J, ""))

    def test_report_of_a_miss(self):
        """A report that says "misses" is an answer."""
        plan = bytearray(CASE_J.read_bytes())
        plan[53] = 61
        self.assert_as_second(bytes(plan), 0)

    def test_every_refusal(self):
        """Every refusal of the plans that the second program makes has status 1."""
        tried = set()
        for plan, answer in made_plans():
            number = answer.split(" ")[0] if " " in answer else "0"
            if number not in tried:
                tried.add(number)
                self.assert_as_second(plan, 0 if number == "0" else 1)
        self.assertEqual(tried, set(map(str, range(14))) - {"11"})

    def test_sizes(self):
        """Plans of every size: none, one that fills every limit, the longest, a byte too long, endless."""
        full = fullest()
        self.assert_as_second(b"", 1)
        self.assert_as_second(full, 0)
        self.assertEqual(len(answered(full)[1]), 2 * (14 + 64 * 22 + 32 * 29) + 1)
        self.assertEqual(answered(full + bytes(4096 - len(full))), (1, b"6 %d\n" % len(full)))
        self.assertEqual(answered(full + bytes(4097 - len(full))), (1, b"1 0\n"))
        self.assertEqual(shell("./late < /dev/zero"), (1, "1 0\n", ""))

    def test_text_in_place_of_a_plan(self):
        status, output, error = shell("tools/readable plan examples/case-j.hex | ./late")
        self.assertEqual((status, output), (1, "3 0\n"))
        self.assertEqual(error, "late: a plan begins with byte 01; is this text? tools/readable bytes makes a plan of it\n")

    def test_examples(self):
        """Every command of the examples' pages is run as shown."""
        commands = [pair for page in sorted(EXAMPLES.glob("*.md")) for pair in commands_of(page.read_text())]
        self.assertGreater(len(commands), 15)
        for command, output in commands:
            with self.subTest(command):
                self.assertEqual(shell(command)[1:], (output, ""))


class NoAnswers(unittest.TestCase):
    """Status 2 is no answer, and a line on standard error says why."""

    def assert_none(self, command, error, **settings):
        """Nothing is printed, and this is said."""
        self.assertEqual(shell(command, **settings), (2, "", error))

    def test_output_that_fails(self):
        for shown in "./late", "dash ./late", "bash ./late":
            self.assert_none(f"{shown} < {CASE_J} > /dev/full", "late: standard output cannot be written\n")
            self.assert_none(f"{shown} < {CASE_J} >&-", "late: standard output is closed\n")
            self.assert_none(f"{shown} --help > /dev/full", "late: standard output cannot be written\n")
            _, _, error = shell(f"(sleep 1; {shown}; echo $? >&2) < {CASE_J} | true")
            self.assertEqual(error, "late: standard output cannot be written\n2\n")

    def test_program_says_what_failed(self):
        """The program itself has no exit status, but it says on standard error what failed."""
        said = shell(f"crates/late/out/late < {CASE_J} > /dev/full")
        self.assertEqual(said, (0, "", "late: standard output: No space left on device\n"))
        self.assertEqual(shell("crates/late/out/late < /"), (0, "", "late: standard input: Is a directory\n"))

    def test_input_that_fails(self):
        for shown in "dash ./late", "bash ./late":
            self.assert_none(f"{shown} <&-", "late: standard input is closed\n")
            _, output, error = shell(f"{shown} < /")
            self.assertEqual(output, "")
            self.assertEqual(error, "late: standard input: Is a directory\nlate: no answer: the program printed no whole line\n")

    def test_arguments(self):
        for words in "plan.bin", "''", "--version", "--help more":
            self.assert_none(f"./late {words} < {CASE_J}", "late: no argument is taken; usage: late < PLAN (--help says more)\n")
        status, output, error = shell("./late --help")
        self.assertEqual((status, error), (0, ""))
        self.assertIn("exit status:\n  0  a report", output)

    def test_without_the_kit(self):
        """What is missing is named, and where README says so."""
        python = Path(sys.executable).parent
        status, output, error = shell("./late < /dev/null", PATH=f"{python}:/usr/bin:/bin")
        self.assertEqual((status, output), (2, ""))
        self.assertRegex(error, r"\Alate: [^\n]*rt is not here[^\n]*README, 'What it needs'\n\Z")
        self.assertIn("\n## What it needs\n", (ROOT / "README.md").read_text())

    def test_interrupted(self):
        """An interrupt while it waits for a plan."""
        waits = subprocess.Popen([LATE], stdin=subprocess.PIPE, stdout=subprocess.PIPE, stderr=subprocess.PIPE, start_new_session=True)
        with self.assertRaises(subprocess.TimeoutExpired):
            waits.wait(2)
        os.killpg(waits.pid, signal.SIGINT)
        output, error = waits.communicate()
        self.assertEqual((waits.returncode, output, error), (2, b"", b"late: interrupted\n"))

    def test_terminal(self):
        """At a terminal it says what it waits for."""
        ours, theirs = pty.openpty()
        waits = subprocess.Popen([LATE], stdin=theirs, stdout=subprocess.PIPE, stderr=subprocess.PIPE)
        self.assertEqual(waits.stderr.readline(), b"late: waiting for a plan's bytes on standard input (--help says more)\n")
        os.write(ours, b"\x04")
        self.assertEqual(waits.communicate(), (b"2 0\n", b""))
        os.close(ours)
        os.close(theirs)


class Whole(unittest.TestCase):
    """What the program prints is an answer only if it is one whole line and the program ended well."""

    def late_over(self, program):
        """What ./late does where the program is that script of the shell."""
        with tempfile.TemporaryDirectory() as folder:
            os.mkdir(f"{folder}/tools")
            shutil.copy(LATE, folder)
            for name, script in ("program", program), ("tools/proved.py", 'echo "${0%/*}/../program"'):
                path = Path(folder) / name
                path.write_text(f"#!/bin/sh\n{script}\n")
                path.chmod(0o755)
            return shell("./late < /dev/null", cwd=folder)

    def test_whole(self):
        self.assertEqual(self.late_over(f"printf '{LINE_J}'"), (0, LINE_J, ""))
        self.assertEqual(self.late_over("echo 13 12"), (1, "13 12\n", ""))

    def test_not_whole(self):
        report = LINE_J.strip()
        cut = [f"echo {report[:length]}" for length in (0, 6, 27, 28, 29, 116, len(report) - 2, len(report) - 1)]
        more = [f"echo {report}00", f"echo {report}; echo {report}", "echo 13 12; echo", "echo 13 12; echo 13 12", "echo 13 12 0"]
        other = [f"echo {report.lower()}", f"echo 82{report[2:]}", f"printf {report}", "printf '13 12'", "echo 13", "echo 0 87"]
        ended = [f"echo {report}; kill -9 $$", "echo 13 12; kill -9 $$", "echo 13 12; exit 1", "true"]
        for program in cut + more + other + ended:
            with self.subTest(program):
                status, output, error = self.late_over(program)
                self.assertEqual((status, output), (2, ""))
                self.assertRegex(error, r"late: no answer: the program printed no whole line\n\Z")


class Scripts(unittest.TestCase):
    """README's one safe line for a script."""

    def test_safe_line(self):
        """A refusal leaves no report, not even an old one."""
        [line] = re.findall(r"^    (rm -f bench\.report; .*)$", (ROOT / "README.md").read_text(), re.M)
        with tempfile.TemporaryDirectory() as folder:
            report = Path(folder) / "bench.report"
            for plan, status, left in (CASE_J.read_bytes(), 0, LINE_J), (b"", 1, None):
                (Path(folder) / "bench.plan").write_bytes(plan)
                self.assertEqual(shell(line.replace("./late", str(LATE)), cwd=folder)[0], status)
                self.assertEqual(report.read_text() if report.exists() else None, left)


class Places(unittest.TestCase):
    """Called from other directories, through links, with CDPATH set."""

    def test_links_and_directories(self):
        with tempfile.TemporaryDirectory() as folder:
            os.symlink(LATE, f"{folder}/here")
            os.mkdir(f"{folder}/tools")
            for command in f"{LATE} < {CASE_J}", f"./here < {CASE_J}", f"sh here < {CASE_J}", f"cd /; {folder}/here < {CASE_J}":
                with self.subTest(command):
                    self.assertEqual(shell(command, cwd=folder, CDPATH=f"{folder}:."), (0, LINE_J, ""))


class Stale(unittest.TestCase):
    """A program of other sources is never run."""

    def setUp(self):
        folder = tempfile.TemporaryDirectory()
        self.addCleanup(folder.cleanup)
        self.copy = Path(folder.name) / "copy of it"
        skipped = shutil.ignore_patterns(".git", "must-fail", "out", "second", "vectors")
        shutil.copytree(ROOT, self.copy, ignore=skipped)
        (self.copy / "crates.txt").write_text(re.sub("(?m)^vectors:.*", "", (ROOT / "crates.txt").read_text()))

    def late(self):
        """What ./late of the copy does with case J."""
        return shell(f"./late < {CASE_J}", cwd=self.copy)

    def assert_interrupted(self):
        """An interrupt while it proves is no answer, and leaves no proof running."""
        proving = subprocess.Popen(["./late"], cwd=self.copy, stdin=subprocess.PIPE, stdout=subprocess.PIPE, stderr=subprocess.PIPE, start_new_session=True)
        with self.assertRaises(subprocess.TimeoutExpired):
            proving.wait(3)
        os.killpg(proving.pid, signal.SIGINT)
        output, error = proving.communicate()
        self.assertEqual((proving.returncode, output), (2, b""))
        self.assertRegex(error, rb"first, 14 crates: some minutes\nlate: \d+ s\nlate: interrupted\n\Z")
        self.assertEqual(shell(f"pgrep -f '{self.copy}'")[1], "")

    def test_stale(self):
        """Another program, other sources, broken sources: it is proved again or does not answer."""
        program = self.copy / "crates/late/out/late"
        program.parent.mkdir()
        shutil.copy("/bin/true", program)
        self.assert_interrupted()
        status, output, error = self.late()
        self.assertEqual((status, output), (0, LINE_J))
        self.assertRegex(error, r"\Alate: proving and building it first, 14 crates: some minutes\nlate: \d+ s\n\Z")
        self.assertEqual(self.late(), (0, LINE_J, ""))
        main = self.copy / "crates/late/src/main.rt"
        main.write_text(main.read_text().replace("&plan[..bytes]", "&plan[..ENOUGH + bytes]"))
        status, output, error = self.late()
        self.assertEqual((status, output), (2, ""))
        log = re.search(r"\nlate: not proved: .*; the whole log is (.*)\n\Z", error)[1]
        self.assertIn("fn late::main: no proof", Path(log).read_text())


if __name__ == "__main__":
    unittest.main()
