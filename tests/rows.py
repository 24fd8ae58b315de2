#!/usr/bin/env python3
"""Runs the cases of tests/rows on the built program, each in an empty folder of its own. tests/rows/README.md says how a case is written."""
import os
import subprocess
import sys
import tempfile

TOP = os.path.dirname(os.path.dirname(os.path.abspath(__file__)))
ROWS = os.path.join(TOP, "tests", "rows")
PROGRAM = os.path.join(TOP, "pebble_cli")
SECONDS = 60


class Wrong(Exception):
    """What a case found that it doesn't allow."""


def read(path):
    with open(path, "rb") as file:
        return file.read()


def shown(data):
    return repr(data if len(data) <= 400 else data[:400] + b"..")


class Case:
    def __init__(self, name, folder):
        self.home = os.path.join(ROWS, name)
        self.folder = folder
        self.words = ["run"]
        self.made = {}

    def text(self, name, default=b""):
        path = os.path.join(self.home, name)
        return read(path) if os.path.exists(path) else default

    def at(self, file):
        return os.path.join(self.folder, file)

    def do_words(self, *words):
        self.words = list(words)

    def do_repeat(self, name, count, text):
        self.made[name] = text.encode().decode("unicode_escape").encode("latin-1") * int(count) + self.text(name + ".script")

    def do_run(self, name):
        script = self.made.get(name, self.text(name + ".script"))
        want = (int(self.text(name + ".status", b"0")), self.text(name + ".out"))
        ended = subprocess.run([PROGRAM, *self.words], input=script, cwd=self.folder, capture_output=True, timeout=SECONDS)
        if ended.stderr:
            raise Wrong(f"{name}: standard error has {shown(ended.stderr)}")
        if (ended.returncode, ended.stdout) != want:
            raise Wrong(f"{name}: wanted status {want[0]} and {shown(want[1])}, got status {ended.returncode} and {shown(ended.stdout)}")

    def do_write(self, file, *pairs):
        os.makedirs(os.path.dirname(self.at(file)), exist_ok=True)
        with open(self.at(file), "wb") as out:
            out.write(bytes.fromhex("".join(pairs)))

    def do_cut(self, file, length):
        os.truncate(self.at(file), int(length))

    def do_remove(self, file):
        os.remove(self.at(file))

    def do_holds(self, file, *pairs):
        want = bytes.fromhex("".join(pairs))
        got = read(self.at(file)) if os.path.exists(self.at(file)) else None
        if got != want:
            raise Wrong(f"{file} holds {got and got.hex(' ')}, wanted {want.hex(' ')}")

    def do_files(self, folder, *names):
        got = sorted(os.listdir(self.at(folder))) if os.path.isdir(self.at(folder)) else []
        if got != sorted(names):
            raise Wrong(f"{folder} has the files {got}, wanted {sorted(names)}")

    def run(self):
        for line in self.text("steps").decode().splitlines():
            if line and not line.startswith("#"):
                verb, *arguments = line.split(" ")
                getattr(self, "do_" + verb)(*arguments)


def main():
    wanted = sys.argv[1:] or sorted(name for name in os.listdir(ROWS) if os.path.isdir(os.path.join(ROWS, name)))
    # The launcher builds the program where it has to, and says so on standard error.
    if subprocess.run([PROGRAM, "run"], stdin=subprocess.DEVNULL).returncode != 0:
        print("0 passed, 1 failed")
        return 1
    failed = 0
    for name in wanted:
        with tempfile.TemporaryDirectory() as folder:
            try:
                Case(name, folder).run()
            except (Wrong, OSError, subprocess.TimeoutExpired, TypeError, AttributeError, ValueError) as wrong:
                failed += 1
                print(f"{name}: {wrong}")
    print(f"{len(wanted) - failed} passed, {failed} failed")
    return 1 if failed else 0


if __name__ == "__main__":
    sys.exit(main())
