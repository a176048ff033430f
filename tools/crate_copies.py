"""What scripts of this folder share: some crates of the repository, copied to a folder of their own where `rt ci` takes them for a whole one."""
import os
import shutil
import sys

TOP = os.path.dirname(os.path.dirname(os.path.realpath(__file__)))
TIERS = ("must-fail", "deep-edits")


def libraries():
    """The libraries of the repository that each crate of crates.txt uses."""
    uses = {}
    with open(f"{TOP}/crates.txt", encoding="utf-8") as it:
        for line in it:
            name, colon, rest = line.split("#")[0].partition(":")
            if colon:
                uses[name.split()[0]] = rest.split()
    return {name: [it for it in used if it in uses] for name, used in uses.items()}


def archives():
    """The crates that are static libraries."""
    with open(f"{TOP}/crates.txt", encoding="utf-8") as it:
        names = [line.split("#")[0].partition(":")[0].split() for line in it]
    return {name[0] for name in names if name[1:2] == ["staticlib"]}


def with_below(names):
    """These crates and all that they stand on, lowest first."""
    uses, found = libraries(), []

    def add(name):
        if name not in uses:
            sys.exit(f"crates.txt does not name {name}")
        if name not in found:
            for it in uses[name]:
                add(it)
            found.append(name)

    for name in names:
        add(name)
    return found


def lay_out(folder, crates):
    """Copies these crates to the folder, but for their edits, with HANDLES and a crates.txt of their lines."""
    for name in crates:
        shutil.copytree(f"{TOP}/crates/{name}", f"{folder}/crates/{name}", ignore=shutil.ignore_patterns("out", *TIERS))
    with open(f"{TOP}/crates.txt", encoding="utf-8") as it:
        lines = [line for line in it if (line.split("#")[0].split(":")[0].split() or [""])[0] in crates]
    with open(f"{folder}/crates.txt", "w", encoding="utf-8") as it:
        it.writelines(lines)
    shutil.copyfile(f"{TOP}/HANDLES", f"{folder}/HANDLES")
