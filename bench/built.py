"""Builds the program of a figure over copies of the crates that it uses, in a folder of its own, since it belongs to nothing that is
released. Its first build proves these crates, so a folder that is kept saves minutes."""
import os
import re
import shutil
import subprocess

TOP = os.path.dirname(os.path.dirname(os.path.abspath(__file__)))
PARTS = ("src", "specs", "proofs")
SHORT_ROWS = """use Rattle.std.specs.Prelude.{All}
use Rattle.pb_rows.specs.Layer.{IsShortRow}
use Rattle.NAME.proofs.layer_of.Given as goal

abbrev pub invariant-loop-number : goal.invariant-loop-number
invariant-loop-number l = All IsShortRow l.rows.items
"""


def lines(source):
    """The lines of crates.txt, each with the names in it."""
    with open(os.path.join(source, "crates.txt")) as file:
        return {line.split(":")[0]: line for line in file if ":" in line.partition("#")[0]}


def below(listed, names):
    """These crates and those below them."""
    found = []
    for name in names:
        if name in listed:
            others = below(listed, listed[name].partition(":")[2].split())
            found += [it for it in [*others, name] if it not in found]
    return found


def write(path, text):
    os.makedirs(os.path.dirname(path), exist_ok=True)
    with open(path, "w") as file:
        file.write(text)


def commit_tree(commit, folder):
    """The crates of a commit, to build a program over."""
    os.makedirs(folder, exist_ok=True)
    archive = subprocess.run(["git", "archive", commit, "crates", "crates.txt"], cwd=TOP, check=True, stdout=subprocess.PIPE)
    subprocess.run(["tar", "x", "-C", folder], input=archive.stdout, check=True)
    return folder


def build(folder, name, libraries, program, proofs, source=TOP):
    """The built program of this text over the crates of the source, with its proof files by their paths."""
    listed = lines(source)
    crates = below(listed, libraries)
    for crate in crates:
        for part in PARTS:
            there = os.path.join(folder, "crates", crate, part)
            shutil.rmtree(there, ignore_errors=True)
            if os.path.isdir(os.path.join(source, "crates", crate, part)):
                shutil.copytree(os.path.join(source, "crates", crate, part), there)
    kept = "".join(listed[crate] for crate in crates)
    write(os.path.join(folder, "crates.txt"), f"{kept}{name}: {' '.join(libraries)}\n")
    shutil.copy(os.path.join(TOP, "HANDLES"), folder)
    home = os.path.join(folder, "crates", name)
    write(os.path.join(home, "src", "main.rt"), program)
    for path, text in proofs.items():
        write(os.path.join(home, "proofs", path), text.replace("NAME", name))
    subprocess.run(["rt", "run"], cwd=home, check=True, stdout=subprocess.DEVNULL)
    return os.path.join(home, "out", name)


def numbers(program):
    """The numbers that the program prints."""
    printed = subprocess.run([program], check=True, stdout=subprocess.PIPE, text=True).stdout
    return [int(word) for word in re.findall(r"\d+", printed)]


def best(rounds):
    """The least of each number."""
    return [min(each) for each in zip(*rounds)]
