"""Builds a static library over the libraries that `rt ci` proved and left beside it, so that none is proved a second time."""
import os
import shutil
import subprocess

from crate_copies import libraries, with_below


def kit():
    """The folder of the Rattle kit: that of the command `rt`, unless RATTLE_KIT names it."""
    named = os.environ.get("RATTLE_KIT")
    return named or os.path.dirname(os.path.dirname(os.path.realpath(shutil.which("rt"))))


def uses(top, name):
    """The libraries on a crate's line of crates.txt."""
    with open(f"{top}/crates.txt", encoding="utf-8") as it:
        lines = [line.split("#")[0].partition(":") for line in it]
    return next(rest.split() for head, colon, rest in lines if colon and head.split()[0] == name)


def are_left(top, name):
    """Whether the libraries below the crate were left by `rt ci`."""
    return all(os.path.isfile(f"{top}/crates/{it}/out/rlib/{it}.rlib/format") for it in with_below([name]) if it != name)


def build(top, name):
    """Proves and compiles the crate alone, and returns the path of its archive, or None where that fails."""
    home, own = kit(), libraries()
    words = [f"{home}/bin/rattle", "build", "--crate-name", name, "src/lib.rt", "-L", f"dependency={home}/rlibs"]
    for it in ("std", *(it for it in uses(top, name) if it not in own)):
        words += ["--extern", f"{it}={home}/rlibs/{it}.rlib"]
    for it in own[name]:
        words += ["--extern", f"{it}={top}/crates/{it}/out/rlib/{it}.rlib"]
    for it in with_below([name])[:-1]:
        words += ["-L", f"dependency={top}/crates/{it}/out/rlib"]
    words += ["--antt-project", f"{home}/rattle/logic/antt-project.json", "--logic-built", f"{home}/logic_built"]
    words += ["--toolchain", f"{home}/toolchain", "--backend", "llvm", "--crate-type", "staticlib", "--links", f"{name}=", "--jobs", "1", "--incremental", "out/incremental"]
    folder, archive = f"{top}/crates/{name}", f"out/lib{name}.a"
    os.makedirs(f"{folder}/out", exist_ok=True)
    ended = subprocess.run([*words, "-o", archive], cwd=folder, stdin=subprocess.DEVNULL, stdout=subprocess.PIPE, stderr=subprocess.STDOUT)
    return None if ended.returncode else f"{folder}/{archive}"
