#!/usr/bin/env python3
"""Sees that a program of crates/ is the one proved from what stands here: tools/proved.py NAME

Prints the words that run it, one to a line. A program counts only if it was built from exactly the crates and the kit that
are here. Otherwise it is first proved and built again, with one line that shows how far that is.
Exit status 2: it could not be proved and built; one line on standard error says why."""

import contextlib
import fcntl
import hashlib
import os
import platform
import re
import shutil
import signal
import subprocess
import sys
import time
from pathlib import Path

ROOT = Path(__file__).resolve().parent.parent
CRATES = ROOT / "crates"
LIST = ROOT / "crates.txt"
TARGET = ROOT / "target"
MADE = TARGET / "proved"  # for each program what it was made from, and the log of its last proof


class NotBuilt(Exception):
    """Says why there is no program to run."""


def command(name):
    """The words that run a program, once it is the proved one."""
    kit = kit_identity()
    if not is_made(name, kit):
        with alone():
            if not is_made(name, kit):
                make(name, kit)
    return emulated(program(name))


def program(name):
    """Where the built program stands."""
    return CRATES / name / "out" / name


def kit_identity():
    """The one line by which the kit says what it is."""
    if not shutil.which("rt"):
        raise NotBuilt("the Rattle kit's command rt is not here, and only with it is a program known to be proved: README, 'What it needs'")
    return output_of("rt", "version")


def output_of(*words):
    """What a command of the kit prints."""
    done = subprocess.run(words, stdin=subprocess.DEVNULL, capture_output=True, text=True, check=False)
    if done.returncode != 0:
        raise NotBuilt(f"{' '.join(words)} failed: {done.stderr.strip()}")
    return done.stdout.strip()


# What a program was made from.


def is_made(name, kit):
    """Whether the program that stands here was made from the crates and the kit as they are."""
    stamp = MADE / f"{name}.stamp"
    return program(name).is_file() and stamp.is_file() and stamp.read_text() == stamp_of(name, sources(kit))


def stamp_of(name, made_from):
    """What a program was made from, and the program itself: another program with an old stamp does not pass."""
    return f"{made_from}\n{sum_of(program(name))}\n"


def sources(kit):
    """One sum over the kit's identity and every file of the crates, but for what the kit made of them."""
    files = sorted(path for path in CRATES.rglob("*") if "out" not in path.relative_to(CRATES).parts and path.is_file())
    rows = [f"{path.relative_to(ROOT)} {sum_of(path)}" for path in [LIST, *files]]
    return hashlib.sha256("\n".join([kit, platform.machine(), *rows]).encode()).hexdigest()


def sum_of(path):
    """The sum over a file."""
    return hashlib.sha256(path.read_bytes()).hexdigest()


# Proving.


@contextlib.contextmanager
def alone():
    """Holds the checkout's proofs while nobody else who asks does."""
    MADE.mkdir(parents=True, exist_ok=True)
    with open(MADE / "lock", "w", encoding="utf-8") as lock:
        fcntl.flock(lock, fcntl.LOCK_EX)
        yield


def make(name, kit):
    """Proves and builds a program and notes what it was made from."""
    made_from = sources(kit)
    log = MADE / f"{name}.log"
    for old in program(name), program(name).with_suffix(".stamp"):  # else the kit may take an old program for this one
        old.unlink(missing_ok=True)
    if prove(name, log) != 0:
        raise NotBuilt(f"not proved: {verdict(log)}; the whole log is {log}")
    if sources(kit) != made_from:
        raise NotBuilt("the crates changed while they were being proved: ask again")
    (MADE / f"{name}.stamp").write_text(stamp_of(name, made_from))


def prove(name, log):
    """Has the kit prove, build and run a program on nothing, and shows how far it is. Hands back the kit's exit status."""
    crates = reached(name)
    progress = Progress(name, len(crates))
    with open(log, "wb") as said:
        kit = subprocess.Popen(["rt", "run"], cwd=CRATES / name, stdin=subprocess.DEVNULL, stdout=said, stderr=said, start_new_session=True)
        try:
            while kit.poll() is None:
                progress.show([crate for crate in proved(log) if crate in crates])
                time.sleep(0.2)
        finally:
            if kit.poll() is None:
                os.killpg(kit.pid, signal.SIGKILL)  # the proofs that it has begun too
                kit.wait()
            progress.end()
    return kit.returncode


def reached(name):
    """The crates of the repository that a program is made of, itself among them."""
    lines = (line.split("#")[0].split(":") for line in LIST.read_text().splitlines())
    needs = {crate.split()[0]: rest[0].split() for crate, *rest in lines if rest}
    found, new = set(), {name}
    while new:
        found |= new
        new = {crate for one in new for crate in needs.get(one, ()) if crate in needs} - found
    return found


def proved(log):
    """The crates that a log calls proved, in its order."""
    return re.findall(r"^crate (\w+): (?:.*\n(?!crate ))*?logic=proved", log.read_text(errors="replace"), re.M)


def verdict(log):
    """The first line of a log in which the kit says what failed."""
    said = re.search(r"^(.*: error.*|(?:fn|struct|enum) .*: (?:no proof|not proved).*)$", log.read_text(errors="replace"), re.M)
    return said[1] if said else "the kit does not say what"


class Progress:
    """One line on standard error, rewritten on a terminal, that shows how far a proof is."""

    def __init__(self, name, crates):
        self.name = name
        self.crates = crates
        self.began = time.monotonic()
        self.rewritten = os.isatty(2)
        if not self.rewritten:
            say(f"{name}: proving and building it first, {crates} crates: some minutes\n")

    def show(self, done):
        """Shows the crates proved so far."""
        if self.rewritten:
            last = f", {done[-1]} last" if done else ""
            say(f"\r{self.name}: proving it first: {len(done)} of {self.crates} crates{last}, {self.elapsed()} \033[K")

    def end(self):
        """Ends the line."""
        if self.rewritten:
            say("\r\033[K")
        else:
            say(f"{self.name}: {self.elapsed()}\n")

    def elapsed(self):
        """The time since the beginning, for people."""
        minutes, seconds = divmod(int(time.monotonic() - self.began), 60)
        return f"{minutes} min {seconds} s" if minutes else f"{seconds} s"


def say(text):
    """Writes to standard error, if there is one."""
    with contextlib.suppress(OSError):
        os.write(2, text.encode())


def emulated(path):
    """The words that run an x86-64 program on this machine."""
    machine = platform.machine()
    if machine == "x86_64":
        return [str(path)]
    tools = Path(output_of("rt", "doc")).parent.parent / "on" / machine / "toolchain"
    return [str(tools / "bin/qemu-x86_64"), str(tools / "lib/ld-linux-x86-64.so.2"), "--library-path", str(tools / "lib"), str(path)]


def main(words):
    """Does what the command line asks for."""
    if len(words) != 1 or not re.fullmatch(r"\w+", words[0]) or not (CRATES / words[0] / "src/main.rt").is_file():
        say(__doc__ + "\n")
        return 2
    try:
        print(*command(words[0]), sep="\n")
    except (NotBuilt, OSError) as fault:
        say(f"{words[0]}: {fault}\n")
        return 2
    except KeyboardInterrupt:  # whoever asked is interrupted too, and says so
        return 2
    return 0


if __name__ == "__main__":
    sys.exit(main(sys.argv[1:]))
