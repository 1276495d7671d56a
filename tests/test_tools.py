#!/usr/bin/env python3
"""Tests tools/readable and the examples. Run from anywhere: python3 tests/test_tools.py"""

import functools
import importlib.machinery
import importlib.util
import os
import re
import signal
import struct
import subprocess
import sys
import tempfile
import unittest
from pathlib import Path

ROOT = Path(__file__).resolve().parent.parent
EXAMPLES = ROOT / "examples"
TOOL = ROOT / "tools/readable"
SECOND = ROOT / "second/target/release/second"

# The report that the document prints for case J.
REPORT_J = bytes.fromhex(
    "81000B0100000000000000020201 90001300000000050000000F0000003C000000460003"
    "90001301000000010000002F00000046000000740005"
    "A0001A00010000000000000006000000000000003E000000000000001C"
)
LINE_J = REPORT_J.hex().upper()


def load_tool():
    """The tool as a module, so that not every plan tried starts a process."""
    sys.dont_write_bytecode = True
    loader = importlib.machinery.SourceFileLoader("readable", str(TOOL))
    module = importlib.util.module_from_spec(importlib.util.spec_from_loader("readable", loader))
    loader.exec_module(module)
    return module


def setUpModule():
    """Builds the second program."""
    manifest = ROOT / "second/Cargo.toml"
    build = ["cargo", "build", "--release", "--offline", "--quiet", "--manifest-path", manifest]
    subprocess.run(build, check=True)


def output_of(*command, given=b""):
    """What a command writes, given that input."""
    return subprocess.run(command, input=given, capture_output=True, check=True).stdout


def run_tool(*arguments, given=b""):
    """What the tool does: its exit status, its output and its standard error."""
    done = subprocess.run([TOOL, *arguments], input=given, capture_output=True, check=False)
    return done.returncode, done.stdout, done.stderr.decode()


def run_report(answer, plan):
    """What the tool does with an answer and a plan that is said to be the one answered."""
    with tempfile.NamedTemporaryFile() as file:
        file.write(plan)
        file.flush()
        status, output, error = run_tool("report", "-", "--plan", file.name, given=answer)
        return status, output.decode(), error.replace(file.name, "PLAN")


def shown(command, data):
    """What a command of the tool shows for some bytes."""
    reading, showing = tool.COMMANDS[command]
    return showing(reading(data))


def place_of(answer, plan):
    """What the tool says of the place of an answer, given as its line, in a plan."""
    answer = tool.read_answer(answer.encode() + b"\n")
    return tool.place_text(answer, tool.plan_walker(plan)).decode()


def answer_to(plan):
    """The line that the second program answers to a plan."""
    return output_of(SECOND, given=plan).decode().rstrip("\n")


def example(name):
    """The bytes of an example's plan."""
    return shown("bytes", (EXAMPLES / f"{name}.hex").read_bytes())


def changed(data, place, byte):
    """The data with another byte at a place."""
    return data[:place] + bytes([byte]) + data[place + 1 :]


@functools.lru_cache
def made_plans():
    """Plans of every kind that the second program makes, each with the line that it answers."""
    framed = output_of(SECOND, "--make", "1", "190")
    plans = []
    for line in output_of(SECOND, "--many", given=framed).decode().splitlines():
        end = 2 + int.from_bytes(framed[:2], "big")
        answer, _sweep = line.rsplit(" ", 1)
        plans.append((framed[2:end], answer))
        framed = framed[end:]
    return plans


def commands_of(page):
    """The commands that a page shows after a $, each with the output shown below it."""
    for block in re.findall(r"^    \$ (.*\n(?:    (?!\$ ).*\n|\n(?=    (?!\$ )))*)", page, re.M):
        command, *output = block.splitlines()
        yield command, "".join(line[4:] + "\n" for line in output)


tool = load_tool()


class Plans(unittest.TestCase):
    """Plans as bytes, in hexadecimal and as readable text."""

    def assert_round_trips(self, plan):
        """The readable text and the hexadecimal of a plan's bytes lead back to the same bytes."""
        for command in ("plan", "hex"):
            text = shown(command, plan)
            self.assertEqual(shown("bytes", text), plan)
            self.assertEqual(shown(command, text), text)

    def test_examples(self):
        for file in EXAMPLES.glob("*.hex"):
            with self.subTest(file.name):
                self.assert_round_trips(example(file.stem))

    def test_made_plans(self):
        """Well laid-out plans are read; others are unreadable where the second program says."""
        read = unreadable = 0
        for plan, answer in made_plans():
            number, place = answer.split(" ") if " " in answer else ("0", "0")
            if number in ("2", "3", "4", "6"):
                with self.assertRaisesRegex(tool.Unreadable, f"^offset {place}: "):
                    tool.read_plan(plan)
                unreadable += 1
            elif number not in ("1", "5"):
                self.assert_round_trips(plan)
                read += 1
        self.assertGreater(read, 100)
        self.assertGreater(unreadable, 40)

    def test_values_are_not_judged(self):
        plan = "01 0004 01 01 02 00  10 0002 00 09  20 0012 FF FF" + " FFFFFFFF" * 4
        plan = bytes.fromhex(plan + "21 000B 07 00 00000000 00000000 63")
        self.assertEqual(
            shown("plan", plan).decode(),
            "plan  edition 1  controllers 1  tasks 2  paths 0\n\n"
            "controller 0  policy 9\n\n"
            "task 0  controller 255  priority 255  C- 4294967295  C+ 4294967295"
            "  P 4294967295  J 4294967295\n"
            "task 1  controller   7  priority   0  C-          0  C+          0  fed by 99\n",
        )
        self.assert_round_trips(plan)

    def test_cut_anywhere(self):
        plan = example("case-j")
        for command in ("plan", "hex", "bytes"):
            whole = shown(command, plan)
            for length in range(len(whole)):
                with self.assertRaises(tool.Unreadable):
                    tool.read_plan(whole[:length])

    def test_unreadable_bytes(self):
        plan = example("case-j")
        cases = [
            (b"", "offset 0: plan: fewer than 3 bytes left where tag 01 is due"),
            (plan[:1], "offset 0: plan: fewer than 3 bytes left where tag 01 is due"),
            (plan[:14], "offset 12: task 0: fewer than 3 bytes left where tag 20 or 21 is due"),
            (plan[:-1], "offset 47: path 0: fewer than 6 bytes left for the value of tag 30"),
            (changed(plan, 0, 0x30), "offset 0: plan: tag 30 where 01 is due"),
            (changed(plan, 2, 5), "offset 0: plan: length 5 is not allowed for tag 01"),
            (changed(plan, 3, 2), "offset 3: plan: edition 2 where 1 is due"),
            (changed(plan, 10, 1), "offset 10: controller 0: own number 1 where 0 is due"),
            (plan + b"\xFF", "offset 56: byte FF after the last field"),
        ]
        for data, fault in cases:
            with self.subTest(data), self.assertRaisesRegex(tool.Unreadable, f"^{fault}"):
                tool.read_plan(data)

    def test_lines_left_out_or_doubled(self):
        lines = shown("plan", example("hot-cell")).splitlines(True)
        for number, line in enumerate(lines):
            if line.strip():
                for others in (lines[:number], lines[:number] + [line, line]):
                    with self.assertRaises(tool.Unreadable):
                        tool.read_plan(b"".join(others + lines[number + 1 :]))

    def test_written_by_hand(self):
        text = b"""
            # Spaces do not matter, and comments may stand anywhere.
            plan edition 1 controllers 1 tasks 1 paths 1    # the head
            controller 0 policy 1\r
            task 0 controller 0 priority 007 C- 1 C+ 2 P 10 J 0
            path 0 deadline 10 tasks 0
        """.rstrip(b" ")
        plan = "010004 01010101 100002 0001 200012 0007 00000001 00000002 0000000A 00000000"
        plan += "300005 0000000A 00"
        self.assertEqual(shown("bytes", text), bytes.fromhex(plan))

    def test_unreadable_text(self):
        head = "plan edition 1 controllers 1 tasks 1 paths 1\ncontroller 0 policy 1\n"
        task = "task 0 controller 0 priority 1 C- 1 C+ 1 P 10 J 0\n"
        path = "path 0 deadline 10 tasks 0\n"
        cases = [
            ("controller 0 policy 1\n", "line 1: not the line that is due, 'plan edition N "),
            ("plan edition 2 controllers 1 tasks 1 paths 1\n", "line 1: edition 2 where 1 is due"),
            ("plan edition 1 controllers 256 tasks 1 paths 1\n", "line 1: controllers 256 is too"),
            (head, "end of the text: 'task 0 controller N "),
            (head + path + task, "line 3: not the line that is due, 'task 0 "),
            (head + task.replace("task 0", "task 1"), "line 3: not the line that is due"),
            (head + task.replace("P 10", "P 4294967296"), "line 3: P 4294967296 is too large"),
            (head + task.replace("P 10", "P 10000000000000"), "line 3: not the line"),
            (head + task.replace("P 10", "P -10"), "line 3: not the line"),
            (head + task.replace("P 10", "P ten"), "line 3: not the line"),
            (head + task.replace("P 10", "P \u0661\u0660"), "line 3: not the line"),
            (head + task + "path 0 deadline 10 tasks\n", "line 4: not the line"),
            (head + task + "path 0 deadline 10 tasks" + " 0" * 17 + "\n", "line 4: not the line"),
            (head + task + path + path, "line 5: a line after the last one"),
            (head + task + path.rstrip(), "line 4: the line does not end"),
            ("01 0004 01 01 01 00\n10 0002 00 0\n", "line 2: not hexadecimal"),
            ("01 0004 01 01 01 00\n", "end of the text: controller 0: fewer than 3 "),
            ("# nothing but a comment\n", "end of the text: 'plan edition N "),
        ]
        for text, fault in cases:
            with self.subTest(text), self.assertRaisesRegex(tool.Unreadable, f"^{fault}"):
                tool.read_plan(text.encode())

    def test_comments_that_belie_the_bytes(self):
        """A comment in the form of a field's line must be that line, behind one whole field."""
        text = shown("hex", example("case-j")).decode()
        board = "controller 0 policy 1"
        task = "task 0 controller 0 priority 1 C- 5 C+ 5 P 30 J 60"
        path, other = "path 0 deadline 90 tasks 0 1", "path 1 deadline 90 tasks 0 1"
        truth, part = f"'{path}'", "are not one whole field"
        cases = [
            (text.replace(" 90 ", " 50 "), 5, "path 0 deadline 50 tasks 0 1", truth),
            (text.replace(" 90 ", " 090 "), 5, "path 0 deadline 090 tasks 0 1", truth),
            (text.replace(" 90 ", f" {10**10} "), 5, f"path 0 deadline {10**10} tasks 0 1", truth),
            (text.replace("# path 0", f"# {path} #path 1"), 5, other, truth),
            (text.replace("# path 0", f"# {board} # path 0"), 5, board, truth),
            (text.replace("# controller 0  policy 1\n", ""), 2, task, part),
            (text.replace("30 0006", "30 0006\n"), 6, path, part),
        ]
        for given, line, claim, bytes_say in cases:
            with self.subTest(given):
                fault = f"line {line}: the comment says '{claim}', the bytes {bytes_say}"
                message = f"readable: -: unreadable: {fault}\n"
                self.assertEqual(run_tool("bytes", "-", given=given.encode()), (2, b"", message))

    def test_free_comments(self):
        plan = example("case-j")
        digits, text = shown("hex", plan).decode(), shown("plan", plan).decode()
        path = "path 0  deadline 90  tasks 0 1"
        cases = [
            digits.replace(path, "path   0 deadline 90 tasks 0   1"),
            digits.replace(path, "the alarm, whose deadline is 50"),
            digits.replace("30 0006", "# path 0 deadline 50 tasks 0 1\n30 0006"),
            text.replace(path, f"{path}  # path 0 deadline 50 tasks 0 1"),
        ]
        for case in cases:
            self.assertNotIn(case, (digits, text))
            self.assertEqual(shown("bytes", case.encode()), plan)


class Reports(unittest.TestCase):
    """Reports and refusals."""

    def test_made_reports(self):
        """Every number shown is the one in the report, as a line, as bytes and before FF."""
        answers = [answer for _, answer in made_plans() if " " not in answer]
        self.assertGreater(len(answers), 40)
        for answer in answers:
            report = bytes.fromhex(answer)
            text = shown("report", answer.encode() + b"\n")
            self.assertEqual(text, shown("report", report))
            self.assertEqual(text, shown("report", report + b"\xFF" * 100))
            numbers = re.findall(r"-?\b\d+\b|meets|misses", text.decode())
            self.assertEqual(numbers, self.numbers(report))

    @staticmethod
    def numbers(report):
        """The numbers of a report in layout order, read without the tool."""
        edition, sweeps, tasks, paths = struct.unpack_from(">3xBQBB", report)
        numbers = [edition, sweeps, tasks, paths]
        for task in range(tasks):
            numbers += struct.unpack_from(">3xBIIIIH", report, 14 + 22 * task)
        for path in range(paths):
            place = 14 + 22 * tasks + 29 * path
            own, verdict, *ticks = struct.unpack_from(">3xBBQQq", report, place)
            numbers += [own, {1: "meets", 2: "misses"}[verdict], *ticks]
        return list(map(str, numbers))

    def test_verdict_and_slack_are_those_in_the_report(self):
        report = bytearray(REPORT_J)
        report[62] = 2
        self.assertIn(b"   0   misses     6     62     28\n", shown("report", bytes(report)))
        report[62], report[-8:] = 1, b"\xFF" * 8
        self.assertIn(b"   0    meets     6     62     -1\n", shown("report", bytes(report)))

    def test_cut_anywhere(self):
        for whole in (REPORT_J, LINE_J.encode() + b"\n", b"13 12\n"):
            for length in range(len(whole)):
                with self.assertRaises(tool.Unreadable):
                    tool.read_answer(whole[:length])

    def test_changed_layout(self):
        """A change in a tag, a length, an own number, the edition, a count or a verdict is seen."""
        heads = [0, 14, 36, 58]
        places = [head + place for head in heads for place in range(4)] + [12, 13, 62]
        for place in places:
            for byte in (0x00, 0x03, 0x7F, 0xFF):
                report = bytearray(REPORT_J)
                if report[place] != byte:
                    report[place] = byte
                    with self.subTest(place), self.assertRaises(tool.Unreadable):
                        tool.read_answer(bytes(report))

    def test_unreadable_reports(self):
        line = LINE_J.encode()
        cases = [
            (b"", "offset 0: report: fewer than 3 bytes left where tag 81 is due"),
            (b"\xFF" * 87, "offset 0: report: tag FF where 81 is due"),
            (b"\x82\x00\x03\x01\x00\x00", "offset 0: report: tag 82 where 81 is due"),
            (REPORT_J + b"\xFF\x00", "offset 88: byte 00 after the last field"),
            (changed(REPORT_J, 62, 0), "offset 62: path 0: verdict 0 where 1 or 2 is due"),
            (changed(REPORT_J, 3, 2), "offset 3: report: edition 2 where 1 is due"),
            (changed(REPORT_J, 39, 2), "offset 39: task 1: own number 2 where 1 is due"),
            (line.lower() + b"\n", "character 4: "),
            (line[:28] + b" " + line[28:] + b"\n", "character 28: "),
            (line + b"\n" + line + b"\n", "character 174: "),
            (b"0 87\n", "character 0: "),
            (b"14 0\n", "character 0: there is no refusal 14"),
            (b"12 0", "character 2: "),
            (b"12 0 0\n", "character 2: "),
            (b"12  0\n", "character 2: "),
            (b"12 00\n", "character 2: "),
            (b"012 0\n", "character 2: "),
        ]
        for report, fault in cases:
            with self.subTest(report), self.assertRaisesRegex(tool.Unreadable, f"^{fault}"):
                tool.read_answer(report)

    def test_refusals(self):
        """Every refusal of the made plans is shown with its number and its place."""
        seen = set()
        for _, answer in made_plans():
            if " " in answer:
                number, place = answer.split(" ")
                first, second = shown("report", answer.encode() + b"\n").decode().splitlines()
                self.assertTrue(first.startswith(f"refusal {number}: "))
                self.assertTrue(second.startswith(f"place {place}: "))
                seen.add(int(number))
        self.assertEqual(seen, set(range(1, 14)) - {11})
        self.assertEqual(set(tool.REFUSALS), set(range(1, 14)))


class Places(unittest.TestCase):
    """What a refusal's place means in the plan that was answered."""

    def assert_place(self, plan, answer, said):
        """Given that plan, the tool shows a refusal and then says that."""
        answer = f"{answer}\n".encode()
        refusal = shown("report", answer).decode()
        self.assertEqual(run_report(answer, plan), (0, refusal + said, ""))

    def test_plans_in_three_ways(self):
        """The place is found in a plan's text, hexadecimal and bytes."""
        case_j, ring, overload, backlog = (
            shown("plan", example(name)).decode()
            for name in ("case-j", "ring", "overload", "backlog")
        )
        costly = case_j.replace("C+ 9", "C+ 2000000")
        sharing = case_j.replace("priority 2", "priority 1")
        backwards = case_j.replace("tasks 0 1", "tasks 1 0")
        crowded = "plan edition 1 controllers 1 tasks 17 paths 0\ncontroller 0 policy 1\n"
        for task in range(17):
            crowded += f"task {task} controller 0 priority {task} C- 1 C+ 1 P 99 J 0\n"
        cases = [
            (costly, "5 42", 6, 4, 42, "task 1: C+ 2000000 where 1..1000000 is due"),
            (sharing, "7 1", 6, 4, 33, "task 1  controller 0  priority 1  C- 1  C+ 9  fed by 0"),
            (ring, "8 0", 7, 5, 22, "task 0  controller 0  priority 1  C- 3  C+ 5  fed by 3"),
            (backwards, "9 0", 8, 5, 47, "path 0  deadline 90  tasks 1 0"),
            (crowded, "10 0", 2, 2, 7, "controller 0  policy 1"),
            (overload, "12 0", 3, 2, 7, "controller 0  policy 1"),
            (backlog, "13 1", 7, 5, 38, "task 1  controller 1  priority 2  C- 20  C+ 30  fed by 0"),
        ]
        for text, answer, text_line, hex_line, offset, said in cases:
            with self.subTest(answer):
                plan = shown("bytes", text.encode())
                self.assertEqual(answer_to(plan), answer)
                self.assert_place(text.encode(), answer, f"line {text_line}: {said}\n")
                self.assert_place(shown("hex", plan), answer, f"line {hex_line}: {said}\n")
                self.assert_place(plan, answer, f"offset {offset}: {said}\n")

    def test_plans_without_a_text(self):
        """The place is found in a plan's bytes and in hexadecimal, here with eight bytes a line."""
        plan = example("case-j")
        cases = [
            (plan[:47], "2 47", "path 0: fewer than 3 bytes left where tag 30 is due"),
            (plan[:55], "2 47", "path 0: fewer than 6 bytes left for the value of tag 30"),
            (changed(plan, 33, 0x30), "3 33", "task 1: tag 30 where 20 or 21 is due"),
            (changed(plan, 9, 0), "4 7", "controller 0: length 0 is not allowed for tag 10"),
            (changed(plan, 3, 2), "5 3", "plan: edition 2 where 1 is due"),
            (changed(plan, 10, 1), "5 10", "controller 0: own number 1 where 0 is due"),
            (plan + b"\xFF", "6 56", "byte FF after the last field"),
        ]
        for data, answer, said in cases:
            with self.subTest(said):
                self.assertEqual(answer_to(data), answer)
                offset = int(answer[2:])
                line = f"line {offset // 8 + 1}" if offset < len(data) else "end of the text"
                self.assert_place(data.hex("\n", -8).encode() + b"\n", answer, f"{line}: {said}\n")
                self.assert_place(data, answer, f"offset {offset}: {said}\n")

    def test_places_outside_the_plan(self):
        long = "plan edition 1 controllers 1 tasks 1 paths 200\ncontroller 0 policy 1\n"
        long += "task 0 controller 0 priority 0 C- 1 C+ 1 P 9 J 0\n"
        for path in range(200):
            long += f"path {path} deadline 9 tasks{' 0' * 16}\n"
        plan = shown("bytes", long.encode())
        self.assertEqual(answer_to(plan), "1 0")
        for data in (long.encode(), shown("hex", plan), plan):
            self.assert_place(data, "1 0", "the plan has 4633 bytes\n")
        self.assert_place(example("case-j"), "11 87", "")

    def test_ranges(self):
        """The range that a refused number is not in is the document's."""
        plan = example("case-j")
        text = shown("plan", plan).decode()
        cases = [
            (changed(plan, 4, 17), "plan: controllers 17 where 1..16 is due"),
            (changed(plan, 5, 65), "plan: tasks 65 where 1..64 is due"),
            (changed(plan, 6, 33), "plan: paths 33 where 0..32 is due"),
        ]
        for old, new, said in [
            ("policy 1", "policy 2", "controller 0: policy 2 where 1 is due"),
            ("0  priority 2", "1  priority 2", "task 1: controller 1 where 0 is due"),
            ("C- 1", "C- 0", "task 1: C- 0 where 1..1000000 is due"),
            ("C+ 5", "C+ 4", "task 0: C+ 4 where 5..1000000 is due"),
            ("P 30", "P 0", "task 0: P 0 where 1..1000000000 is due"),
            ("J 60", "J 1000000001", "task 0: J 1000000001 where 0..1000000000 is due"),
            ("fed by 0", "fed by 2", "task 1: fed by 2 where 0..1 is due"),
            ("deadline 90", "deadline 0", "path 0: deadline 0 where 1..4294967295 is due"),
            ("tasks 0 1", "tasks 0 2", "path 0: tasks 2 where 0..1 is due"),
        ]:
            cases.append((shown("bytes", text.replace(old, new).encode()), said))
        for data, said in cases:
            answer = answer_to(data)
            self.assertIn(f"offset {answer[2:]}: {said}", place_of(answer, data))

    def test_made_plans(self):
        """Every answer fits its plan; a plan that is refused with 1 to 6 fits no other answer."""
        plans = made_plans()
        strangers = 0
        for (plan, answer), (_, other) in zip(plans, plans[1:] + plans[:1]):
            number, place = answer.split(" ") if " " in answer else ("0", "0")
            said = place_of(answer, plan)
            if number in ("0", "1"):
                self.assertEqual(said, f"the plan has {len(plan)} bytes\n" if number == "1" else "")
            elif number in ("2", "3", "4", "5", "6"):
                self.assertTrue(said.startswith(f"offset {place}: "))
            else:
                self.assertIn(f": {tool.OWNERS[int(number)]} {place} ", said)
            if 1 <= int(number) <= 6 and other != answer:
                with self.assertRaises(tool.Stranger):
                    place_of(other, plan)
                strangers += 1
        self.assertGreater(strangers, 40)

    def test_report_of_the_plan(self):
        tables = shown("report", REPORT_J).decode()
        self.assertEqual(run_report(REPORT_J, example("case-j")), (0, tables, ""))

    def test_answers_to_other_plans(self):
        plan = example("case-j")
        refused = changed(plan, 33, 0x30)
        tag = "offset 33: task 1: tag 30 where 20 or 21 is due"
        heads = "it is 'plan edition 1 controllers 3 tasks 8 paths 2', "
        heads += "the answer is 'report edition 1 sweeps 2 tasks 2 paths 1'"
        cases = [
            ("1 0", plan, "refusal 1 is not due"),
            ("2 56", plan, "refusal 2 is not due"),
            ("5 42", plan, "refusal 5 is not due"),
            ("3 34", refused, tag),
            ("5 36", refused, tag),
            ("7 1", refused, tag),
            ("8 2", plan, "there is no task 2"),
            ("9 1", plan, "there is no path 1"),
            ("12 1", plan, "there is no controller 1"),
            (LINE_J, refused, tag),
            (LINE_J, example("hot-cell"), heads),
        ]
        for answer, data, reason in cases:
            with self.subTest(answer=answer, reason=reason):
                message = f"readable: PLAN: not the plan of this answer: {reason}\n"
                self.assertEqual(run_report(f"{answer}\n".encode(), data), (2, "", message))

    def test_unreadable_answer_or_plan(self):
        status, output, error = run_report(b"8 0\n", b"no plan\n")
        self.assertEqual((status, output), (2, ""))
        self.assertIn("readable: PLAN: unreadable: line 1: not the line that is due", error)
        status, output, error = run_report(b"14 0\n", example("case-j"))
        message = "readable: -: unreadable: character 0: there is no refusal 14\n"
        self.assertEqual((status, output, error), (2, "", message))


class Commands(unittest.TestCase):
    """The tool as it is called."""

    def assert_fails(self, command, message):
        """A command line fails with that on standard error, and shows nothing."""
        with self.subTest(command):
            done = subprocess.run(command, shell=True, cwd=ROOT, capture_output=True)
            self.assertEqual((done.returncode, done.stdout), (2, b""))
            self.assertEqual(done.stderr.decode(), message)

    def test_unreadable(self):
        for command in ("plan", "hex", "bytes", "report"):
            for given in (b"", b"\x02\x00\x00\x00", b"no plan\n", b"\xFF\xFE"):
                with self.subTest(command=command, given=given):
                    status, output, error = run_tool(command, "-", given=given)
                    self.assertEqual((status, output), (2, b""))
                    self.assertRegex(error, r"\Areadable: -: unreadable: [^\n]+: [^\n]+\n\Z")

    def test_input_that_fails(self):
        endless = "-: unreadable: longer than 1,000,000 bytes"
        cases = [
            ("tools/readable plan no-such-file", "no-such-file: No such file or directory"),
            ("tools/readable plan 'two\nlines'", "two\\nlines: No such file or directory"),
            ("tools/readable plan examples", "examples: Is a directory"),
            ("tools/readable plan - <examples", "-: Is a directory"),
            ("tools/readable plan - <&-", "-: Bad file descriptor"),
            ("tools/readable plan /proc/self/mem", "/proc/self/mem: Input/output error"),
            ("tools/readable report - </dev/zero", endless),
            ("yes | tools/readable plan -", endless),
        ]
        for command, message in cases:
            self.assert_fails(command, f"readable: {message}\n")

    def test_output_that_fails(self):
        for command in ("tools/readable plan examples/case-j.hex", "tools/readable --help"):
            for output, message in (
                (">&-", "Bad file descriptor"),
                ("<&- >&-", "Bad file descriptor"),
                (">/dev/full", "No space left on device"),
            ):
                message = f"readable: standard output: {message}\n"
                self.assert_fails(f"{command} {output}", message)

    def test_output_that_nobody_reads(self):
        reading, writing = os.pipe()
        os.close(reading)
        command = [TOOL, "plan", EXAMPLES / "case-j.hex"]
        done = subprocess.run(command, stdout=writing, stderr=subprocess.PIPE, check=False)
        os.close(writing)
        message = b"readable: standard output: Broken pipe\n"
        self.assertEqual((done.returncode, done.stderr), (2, message))

    def test_output_that_fails_halfway(self):
        whole = shown("hex", example("hot-cell"))
        with tempfile.NamedTemporaryFile() as file:
            command = f"ulimit -f 1; tools/readable hex examples/hot-cell.hex >{file.name}"
            self.assert_fails(command, "readable: standard output: File too large\n")
            part = file.read()
        self.assertTrue(whole.startswith(part))
        self.assertLess(0, len(part))
        self.assertLess(len(part), len(whole))

    def test_standard_error_that_fails(self):
        for command in ("tools/readable plan no-such-file", "tools/readable nonsense"):
            for error in ("2>&-", "<&- >&- 2>&-", "2>/dev/full"):
                self.assert_fails(f"{command} {error}", "")

    def test_files_with_the_numbers_of_closed_streams(self):
        """A file that is opened may get the number of a stream but is not taken for it."""
        with tempfile.NamedTemporaryFile() as file:
            file.write(b"8 0\n")
            file.flush()
            self.assert_fails(f"tools/readable report {file.name} <&- >&- 2>&-", "")
            command = f"tools/readable report {file.name} --plan - <&-"
            self.assert_fails(command, "readable: -: Bad file descriptor\n")
            self.assertEqual(Path(file.name).read_bytes(), b"8 0\n")

    def test_interrupt(self):
        """The tool is interrupted while it waits for more than the pipe holds."""
        run = subprocess.Popen(
            [TOOL, "plan", "-"],
            stdin=subprocess.PIPE,
            stdout=subprocess.PIPE,
            stderr=subprocess.PIPE,
            preexec_fn=functools.partial(signal.signal, signal.SIGINT, signal.SIG_DFL),
        )
        run.stdin.write(b"#" * 200_000)
        run.stdin.flush()
        run.send_signal(signal.SIGINT)
        output, error = run.communicate()
        self.assertEqual((run.returncode, output), (2, b""))
        self.assertEqual(error, b"readable: interrupted\n")

    def test_wrong_arguments(self):
        usage = "; usage: readable [-h] [--plan PLAN] {plan,hex,bytes,report} FILE\n"
        cases = [
            ("tools/readable", "the following arguments are required: command, FILE"),
            ("tools/readable bytes - --plan plan", "--plan is for 'report' only"),
            ("tools/readable report - --plan -", "only one of FILE and PLAN may be -"),
        ]
        for command, message in cases:
            self.assert_fails(command, f"readable: {message}{usage}")

    def test_help(self):
        status, output, _ = run_tool("--help")
        self.assertEqual(status, 0)
        self.assertIn(b"What it cannot read whole it calls unreadable", output)

    def test_from_a_file_and_from_standard_input(self):
        file = EXAMPLES / "case-j.hex"
        from_file = run_tool("bytes", file)
        self.assertEqual(from_file, run_tool("bytes", "-", given=file.read_bytes()))
        self.assertEqual(from_file[0], 0)


class Examples(unittest.TestCase):
    """The examples and their pages."""

    def test_each_has_a_page_in_the_index(self):
        index = (EXAMPLES / "README.md").read_text()
        names = sorted(file.stem for file in EXAMPLES.glob("*.hex"))
        self.assertEqual(names, sorted(re.findall(r"\[.*?\]\((.*?)\.md\)", index)))
        for name in names:
            self.assertTrue((EXAMPLES / f"{name}.md").exists(), name)

    def test_comments_say_what_the_bytes_say(self):
        for file in EXAMPLES.glob("*.hex"):
            lines = file.read_text().splitlines(True)
            fields = "".join(line for line in lines if line.strip() and line[0] != "#")
            self.assertEqual(fields, shown("hex", file.read_bytes()).decode(), file.name)

    def test_commands_print_what_the_pages_show(self):
        """Every command is run as shown, with the second program in the place of ./late."""
        for file in EXAMPLES.glob("*.hex"):
            commands = list(commands_of(file.with_suffix(".md").read_text()))
            self.assertGreaterEqual(len(commands), 2, file.name)
            for command, output in commands:
                with self.subTest(command):
                    command = command.replace("./late", str(SECOND))
                    done = subprocess.run(command, shell=True, cwd=ROOT, capture_output=True)
                    self.assertEqual((done.stdout.decode(), done.stderr), (output, b""))


if __name__ == "__main__":
    unittest.main()
