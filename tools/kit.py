#!/usr/bin/env python3
"""kit home | crates NAME.. | words CRATE: where the Rattle kit lies, and how its prover is called.

home prints the kit's folder. crates prints the crates that these crates rest on and then themselves, each once and behind what it
uses, a line for each: program, library or staticlib, and the name. words prints, one a line, the call that builds a crate over the
libraries that stand in crates/*/out, as `rt lib` makes it; what is left to say are --toolchain and -o, and --incremental, if any.
tools/prove and tools/module call it; tools/twins and tools/mutate are built on the same functions."""
import hashlib
import os
import pathlib
import shutil
import sys

sys.dont_write_bytecode = True
ROOT = pathlib.Path(__file__).resolve().parent.parent


def home():
    """The kit's folder."""
    return pathlib.Path(shutil.which("rt") or sys.exit("the Rattle kit is needed: there is no rt on the PATH")).resolve().parent.parent


def listed(text):
    """What each line of crates.txt says: the crate, its kind, and what it uses, by the crate's name."""
    found = {}
    for line in text.splitlines():
        name, colon, uses = line.split("#")[0].partition(":")
        if colon:
            name, *static = name.split()
            kind = "staticlib" if static else "program" if (ROOT / "crates" / name / "src" / "main.rt").exists() else "library"
            found[name] = (kind, uses.split())
    return found


CRATES = listed((ROOT / "crates.txt").read_text(encoding="utf-8"))


def below(name):
    """The crates that a crate rests on, each behind what it uses."""
    found = []
    for used in CRATES[name][1]:
        if used in CRATES:
            found += [one for one in [*below(used), used] if one not in found]
    return found


def library(name):
    """Where the library of a proved crate stands."""
    return ROOT / "crates" / name / "out" / "rlib" / f"{name}.rlib"


def room(name):
    """A folder for copies of crates, that of this name and this checkout among the user's: `rt ci` takes no .rt and no .antt file of a
    checkout outside its crates."""
    cache = pathlib.Path(os.environ.get("XDG_CACHE_HOME") or pathlib.Path.home() / ".cache")
    return cache / "zamiachisel" / f"{name}-{hashlib.sha256(str(ROOT).encode()).hexdigest()[:12]}"


def of_kit(names):
    """The libraries of the kit that these crates name, and std."""
    return ["std", *sorted({used for name in names for used in CRATES[name][1]} - set(CRATES))]


def words(verb, crate, root_file, sources=()):
    """The prover with the words of a check or a build of a crate, over the libraries that are built, or over those of `sources` as they
    are written, which are the crates below it, each behind what it uses, with their root files."""
    kit, (kind, uses) = home(), CRATES[crate]
    found = [str(kit / "bin" / "rattle"), verb, "--crate-name", crate, str(root_file)]
    names = sorted({"core", *of_kit([crate, *dict(sources)])}) if sources else of_kit([crate])
    for name in names:
        found += ["--extern", f"{name}={kit}/rlibs/{name}.rlib"]
    found += ["-L", f"dependency={kit}/rlibs"]
    for name, source in sources:
        used = dict.fromkeys(["core", *of_kit([name]), *(one for one in CRATES[name][1] if one in CRATES)])
        found += ["--lib", f"{name}:{','.join(used)}={source}"]
    if not sources:
        for name in below(crate):
            if not library(name).exists():
                sys.exit(f"{name} is not proved: tools/prove {crate} proves it")
            found += ["--extern", f"{name}={library(name)}"] if name in uses else []
            found += ["-L", f"dependency={library(name).parent}"]
    found += ["--antt-project", f"{kit}/rattle/logic/antt-project.json", "--logic-built", f"{kit}/logic_built"]
    return found + (["--crate-type", "staticlib"] if kind == "staticlib" else [])


def main():
    what, names = sys.argv[1:2], sys.argv[2:]
    for name in set(names) - set(CRATES):
        sys.exit(f"there is no crate {name} in crates.txt")
    if what == ["home"] and not names:
        print(home())
    elif what == ["crates"] and names:
        for name in dict.fromkeys(one for name in names for one in [*below(name), name]):
            print(CRATES[name][0], name)
    elif what == ["words"] and len(names) == 1:
        root = "src/main.rt" if CRATES[names[0]][0] == "program" else "src/lib.rt"
        print("\n".join([*words("build", names[0], root), "--backend", "llvm"]))
    else:
        sys.exit(__doc__)


if __name__ == "__main__":
    main()
