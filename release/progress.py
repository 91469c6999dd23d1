#!/usr/bin/env python3
"""Runs a command, writes what it prints to a log file, and prints a short line for each part that is done.

    progress.py LOG COMMAND [WORD]..

A part is a crate that rt has proved (`[7/31] lent`), the edits of a crate that rt has refused, a file of tests that cargo has run, or
one that pytest has run. If the command fails, the end of the log is printed too. The exit status is the command's.
"""
import re
import subprocess
import sys
from pathlib import Path

ROOT = Path(__file__).resolve().parent.parent
TAIL = 40
PROVED = re.compile(r"rt: (\w+) (?:proved()|proved \((?:(\d+) s|unchanged\b.*)\)|is kept: .*)$")
EDIT_REFUSED = re.compile(r"rt: (?:must-fail )?\S+: refused, as it must be")
FAILED = re.compile(r"rt: (?:\w+ NOT PROVED|(?:must-fail )?\S+: (?:NOT REFUSED|BAD EDIT)|FAILED:|in no crate)")
BUILT = re.compile(r"(target/staticlib/\S+) built$")
CARGO_FILE = re.compile(r"\s+Running (?:unittests )?(\S+) \(")
CARGO_RESULT = re.compile(r"test result: \w+\. (\d+) passed; (\d+) failed; .* finished in (\d+)\.\d+s$")
PYTEST_FILE = re.compile(r"(\S*test_\w+\.py) .*\[ *\d+%\]$")


def dependencies():
    """For each crate of crates.txt the crates that it uses."""
    lines = (line.partition("#")[0].partition(":") for line in (ROOT / "crates.txt").read_text(encoding="utf-8").splitlines())
    return {name.split()[0]: used.split() for name, colon, used in lines if colon}


def number_of_crates(words):
    """How many crates the command proves: those it names and what they use, or all."""
    used = dependencies()
    waiting = [word for word in words if word in used] or list(used)
    reached = set()
    while waiting:
        name = waiting.pop()
        if name in used and name not in reached:
            reached.add(name)
            waiting += used[name]
    return len(reached)


class Progress:
    """Turns the lines of a command's output into the few that a reader wants."""

    def __init__(self, total):
        self.total, self.proved, self.unchanged = total, 0, 0
        self.edits = 0
        self.file = ""

    def short(self, line):
        """The line to print for a line of output, or none."""
        if found := PROVED.match(line):
            return self.crate(found[1], found[3] if found[2] is None else "")
        if EDIT_REFUSED.match(line):
            self.edits += 1
            return None
        if found := BUILT.match(line):
            return f"{found[1]} built"
        if FAILED.match(line):
            return line
        if found := PYTEST_FILE.match(line):
            return found[1]
        return self.of_cargo(line)

    def crate(self, name, seconds):
        """The line for a crate that is proved, with the seconds if they are known; a crate that has not changed is only counted."""
        self.proved += 1
        if seconds is None:
            self.unchanged += 1
            return None
        return f"[{self.proved}/{self.total}] {name}" + (f" {seconds} s" if seconds else "")

    def of_cargo(self, line):
        """The line for a file of tests that cargo has run."""
        if found := CARGO_FILE.match(line):
            self.file = found[1]
        found = CARGO_RESULT.match(line)
        if found and found[1] + found[2] != "00":
            return f"{self.file}: {found[1]} passed, {found[2]} failed, {found[3]} s"
        return None

    def summary(self):
        """The lines at the end."""
        refused = [f"wrong programs refused, as they must be: {self.edits}"] if self.edits else []
        all_counted = self.unchanged and self.proved == self.total
        return refused + ([f"crates unchanged since they were proved: {self.unchanged}"] if all_counted else [])


def run(log, words):
    """Runs the command and prints its progress. Returns its exit status."""
    progress = Progress(number_of_crates(words))
    log.parent.mkdir(parents=True, exist_ok=True)
    try:
        process = subprocess.Popen(words, stdout=subprocess.PIPE, stderr=subprocess.STDOUT, text=True, errors="replace")
    except OSError as error:
        print(f"{words[0]}: {error.strerror}")
        return 2
    with log.open("w", encoding="utf-8") as kept:
        for line in process.stdout:
            kept.write(line)
            kept.flush()
            if short := progress.short(line.rstrip("\n")):
                print(short, flush=True)
    print("".join(f"{line}\n" for line in progress.summary()), end="")
    return process.wait()


def main():
    if len(sys.argv) < 3:
        sys.exit("progress.py LOG COMMAND [WORD]..")
    log = Path(sys.argv[1])
    status = run(log, sys.argv[2:])
    if status != 0 and log.is_file():
        lines = log.read_text(encoding="utf-8").splitlines()
        print(f"{' '.join(sys.argv[2:])} failed with status {status}. The end of {log}:")
        print("".join(f"    {line}\n" for line in lines[-TAIL:]), end="", flush=True)
    return status if status >= 0 else 1


if __name__ == "__main__":
    sys.exit(main())
