"""What the gate's scripts know of the crates that `rt ci` has proved: rattle is called for one of them over the libraries below it as
they stand in out/, so that no proof of theirs is made again.

built.py CRATE: proves the static library of this name and builds it, over what out/ keeps of an earlier proof of it."""

import pathlib
import shutil
import subprocess
import sys

ROOT = pathlib.Path(__file__).resolve().parents[1]
KIT = pathlib.Path(shutil.which("rt") or "rt").resolve().parents[1]


def logic():
    """The logic of the kit's prover, by which a proof counts: kits of other names have the same."""
    return (KIT / "KIT-ID").read_text(encoding="utf-8").partition(" logic ")[2].strip()


def lines_of_crates():
    """What crates.txt says of each crate before the colon, and what it uses."""
    lines = (ROOT / "crates.txt").read_text(encoding="utf-8").splitlines()
    return [line.split(":") for line in lines if ":" in line and line[0] != "#"]


USES = {said.split()[0]: uses.split() for said, uses in lines_of_crates()}
STATIC = {said.split()[0] for said, _ in lines_of_crates() if "staticlib" in said.split()}


def below(crate):
    """The crate, and those of the tree that it stands on."""
    found = [crate]
    for name in found:
        found += [it for it in USES[name] if it in USES and it not in found]
    return found


def rlib(name):
    """Where the library of this name is built."""
    return (ROOT / "crates" / name / "out/rlib" if name in USES else KIT / "rlibs") / f"{name}.rlib"


def rattle(verb, crate, *words):
    """rattle's command on a crate, to be called in its folder, or in a copy of that."""
    made = [KIT / "bin/rattle", verb, "--crate-name", crate, "--jobs", "1"]
    for name in ("std", *USES[crate]):
        made += ["--extern", f"{name}={rlib(name)}"]
    for name in below(crate)[1:]:
        made += ["-L", f"dependency={rlib(name).parent}"]
    made += ["-L", f"dependency={KIT / 'rlibs'}", "--antt-project", KIT / "rattle/logic/antt-project.json"]
    made += ["--logic-built", KIT / "logic_built"]
    made += ["--crate-type", "staticlib"] if crate in STATIC else []
    main = ROOT / "crates" / crate / "src/main.rt"
    return [*map(str, made), *words, "src/main.rt" if main.exists() else "src/lib.rt"]


def build_static(crate):
    """Proves the static library of this name and builds it, over what an earlier build has kept, and gives the folder that keeps it."""
    folder = ROOT / "crates" / crate
    kept = folder / "out/incremental"
    kept.mkdir(parents=True, exist_ok=True)
    words = ["--toolchain", str(KIT / "toolchain"), "--backend", "llvm", "--incremental", str(kept), "-o", f"out/lib{crate}.a"]
    ran = subprocess.run(rattle("build", crate, *words), cwd=folder, stdin=subprocess.DEVNULL, capture_output=True, text=True)
    if ran.returncode:
        sys.exit(ran.stdout + ran.stderr)
    return kept


if __name__ == "__main__":
    build_static(*sys.argv[1:])
