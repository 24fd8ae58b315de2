#!/usr/bin/env python3
"""Measures what the gate costs crate by crate: the processor time, user and system, of the kit's own commands, each with one job and over
nothing that is kept.

    proof    `rt check` of the crate, with no out/
    tests    `rt check --test`, with no out/: the crate proved again with its tests, as the gate proves it
    edits    `rt must-fail NAME`

    python3 bench/gate.py [--at-once N] [CRATE ..]

Prints a table in the order of crates.txt, the sum in minutes, the minutes a thousand lines (of src, specs and proofs), the longest chain
of crates, and the five dearest functions of the five dearest crates. A chain is proofs, each waiting for the one below, and the tests and
edits of its last crate. What stands before a crate's first function, its loading, counts in that function.

It works on the last commit, in folders of its own. With N, so many commands run side by side (one, if left out). With crates named, it
measures these alone, over libraries that stand built in this checkout or are first built. By hand: a whole run takes hours."""
import importlib.machinery
import importlib.util
import os
import re
import shutil
import subprocess
import sys
import tempfile
import threading
from concurrent.futures import FIRST_COMPLETED, ThreadPoolExecutor, wait

TOP = os.path.dirname(os.path.dirname(os.path.abspath(__file__)))
TICKS = os.sysconf("SC_CLK_TCK")
WHATS = ("proof", "tests", "edits")
DEAREST = 5


def load(path):
    sys.dont_write_bytecode = True
    loader = importlib.machinery.SourceFileLoader(os.path.basename(path), path)
    made = importlib.util.module_from_spec(importlib.util.spec_from_loader(loader.name, loader))
    loader.exec_module(made)
    return made


prove = load(os.path.join(TOP, "prove"))


def used(process):
    """The processor time of a process and of all that it started, in seconds."""
    try:
        with open(f"/proc/{process}/stat") as file:
            own = file.read().rpartition(")")[2].split()[11:15]
        children = []
        for thread in os.listdir(f"/proc/{process}/task"):
            with open(f"/proc/{process}/task/{thread}/children") as file:
                children += file.read().split()
    except OSError:
        return 0.0
    return sum(map(int, own)) / TICKS + sum(map(used, children))


def timed(words, folder):
    """Runs a command. Returns its processor time in seconds, what each function took that it says it checked, and what it said last where
    it failed."""
    run = subprocess.Popen(words, cwd=folder, stdin=subprocess.DEVNULL, stdout=subprocess.PIPE, stderr=subprocess.STDOUT, text=True, errors="replace")
    functions, said, before = {}, [], 0.0
    for line in run.stdout:
        said.append(line)
        checked = re.match(r"checked (\S+), \d+ of \d+", line)
        if checked:
            now = used(run.pid)
            functions[checked[1]] = now - before
            before = now
    _, status, usage = os.wait4(run.pid, 0)
    run.returncode = os.waitstatus_to_exitcode(status)
    why = f"{''.join(said[-40:])}{' '.join(words)}: status {run.returncode}" if run.returncode else None
    return usage.ru_utime + usage.ru_stime, functions, why


class Tree:
    """A clone of the last commit, in which the libraries come to stand as they are proved."""

    def __init__(self, room):
        self.room, self.top = room, os.path.join(room, "tree")
        subprocess.run(["git", "clone", "-q", TOP, self.top], check=True)
        self.uses = prove.listed(self.top)
        self.lines = {it: prove.lines_of(it, self.top)[1] for it in self.uses}
        self.seconds, self.functions, self.printing = {}, {}, threading.Lock()

    def home(self, crate):
        return os.path.join(self.top, "crates", crate)

    def has(self, crate, what):
        if what == "tests":
            found = [os.path.join(at, it) for at, _, names in os.walk(os.path.join(self.home(crate), "src")) for it in names]
            return any("#[test]" in open(it, errors="replace").read() for it in found)
        edits = os.path.join(self.home(crate), "must-fail")
        return what != "edits" or os.path.isdir(edits) and any(it.endswith(".edit") for it in os.listdir(edits))

    def repository(self, crate, what):
        root = os.path.join(self.room, f"{crate}-{what}")
        prove.make_repository(root, self.top, crate, self.uses)
        return root, os.path.join(root, "crates", crate)

    def library(self, crate, home):
        """Builds the crate's library, over what was proved of it, and sets it where the crates above find it."""
        if not os.path.exists(os.path.join(home, "src", "main.rt")):
            subprocess.run(["rt", "lib", "--jobs", "1"], cwd=home, check=True, stdin=subprocess.DEVNULL, stdout=subprocess.DEVNULL)
            shutil.rmtree(os.path.join(self.home(crate), "out"), ignore_errors=True)
            shutil.copytree(os.path.join(home, "out", "rlib"), os.path.join(self.home(crate), "out", "rlib"))

    def build(self, crate):
        root, home = self.repository(crate, "build")
        prove.copy_tree(os.path.join(TOP, "crates", crate, "out", "rlib"), os.path.join(home, "out", "rlib"))
        self.library(crate, home)
        shutil.rmtree(root)

    def measure(self, crate, what):
        root, home = self.repository(crate, what)
        if what == "edits":
            shutil.copytree(os.path.join(self.home(crate), "must-fail"), os.path.join(home, "must-fail"))
            words, folder = ["must-fail", crate], root
        else:
            words, folder = ["check", *["--test"] * (what == "tests"), "--jobs", "1"], home
        self.seconds[crate, what], functions, why = timed(["rt", *words], folder)
        with self.printing:
            print(f"{why or ''}\n{crate} {what}: {self.seconds[crate, what]:.0f} s".strip(), file=sys.stderr, flush=True)
        if what == "proof":
            self.functions[crate] = functions
            self.library(crate, home)
        shutil.rmtree(root)

    def tasks(self, wanted):
        """Each task with those that it waits for, and its call."""
        needed = {it for crate in wanted for it in prove.below(self.uses, crate)} - {*wanted}
        first = lambda it: (it, "proof") if it in wanted else (it, "build")
        made = {}
        for crate in self.uses:
            waits = [first(it) for it in prove.below(self.uses, crate)]
            if crate in needed:
                made[crate, "build"] = (waits, lambda it=crate: self.build(it))
            for what in WHATS if crate in wanted else ():
                if self.has(crate, what):
                    made[crate, what] = (waits, lambda it=crate, what=what: self.measure(it, what))
        return made


def run_all(tasks, at_once):
    left, running, done = [*tasks], {}, set()
    with ThreadPoolExecutor(at_once) as pool:
        while left or running:
            for it in [it for it in left if {*tasks[it][0]} <= done][: at_once - len(running)]:
                left.remove(it)
                running[pool.submit(tasks[it][1])] = it
            for it in wait(running, return_when=FIRST_COMPLETED).done:
                it.result()
                done.add(running.pop(it))


def chain(tree, wanted):
    """The longest chain: its seconds, and its crates from the lowest up."""
    seconds = lambda crate, what: tree.seconds.get((crate, what), 0.0)
    up, longest = {}, (0.0, [])
    for crate in sorted(wanted, key=lambda it: len(prove.below(tree.uses, it))):
        below, path = max([up[it] for it in tree.uses[crate] if it in up], default=(0.0, []))
        up[crate] = below + seconds(crate, "proof"), [*path, crate]
        ends = below + max(seconds(crate, "proof"), seconds(crate, "tests")) + seconds(crate, "edits")
        longest = max(longest, (ends, up[crate][1]))
    return longest


def table(tree, wanted):
    row = "| {:<22} | {:>7} | {:>7} | {:>7} | {:>7} | {:>7} |".format
    print(row("Crate", "Lines", "Proof", "Tests", "Edits", "Sum"))
    print("|" + "|".join(["---"] * 6) + "|")
    shown = lambda it: f"{it / 60:.1f}" if it else ""
    each = {crate: [tree.seconds.get((crate, what), 0.0) for what in WHATS] for crate in wanted}
    for crate, parts in each.items():
        print(row(crate, tree.lines[crate], *map(shown, parts), shown(sum(parts))))
    sums, lines = [sum(column) for column in zip(*each.values())], sum(tree.lines[it] for it in wanted)
    print(row("sum", lines, *map(shown, sums), shown(sum(sums))))
    print(f"\n{sum(sums) / 60:.0f} processor minutes, {sum(sums) / 60 / (lines / 1000):.1f} a thousand lines")
    return sorted(each, key=lambda it: -sum(each[it]))


def dearest(tree, crates):
    for crate in crates[:DEAREST]:
        found = sorted(tree.functions[crate].items(), key=lambda it: -it[1])[:DEAREST]
        if found:
            print(f"{crate}: " + ", ".join(f"{name.removeprefix(crate + '::')} {seconds:.0f} s" for name, seconds in found))


def main(words):
    at_once = int(words[words.index("--at-once") + 1]) if "--at-once" in words else 1
    named = words[: words.index("--at-once")] + words[words.index("--at-once") + 2 :] if "--at-once" in words else words
    with tempfile.TemporaryDirectory(prefix="gate-") as room:
        tree = Tree(room)
        unknown = {*named} - {*tree.uses}
        if unknown:
            sys.exit(f"{__doc__}\n\nno crate of crates.txt: {' '.join(sorted(unknown))}")
        wanted = [it for it in tree.uses if it in named or not named]
        run_all(tree.tasks(wanted), at_once)
        crates = table(tree, wanted)
        seconds, path = chain(tree, wanted)
        print(f"longest chain: {seconds / 60:.1f} minutes: {', '.join(path)}\n")
        dearest(tree, crates)


if __name__ == "__main__":
    main(sys.argv[1:])
