"""The LLVM module that `rattle` hands to clang when it compiles a proved crate for Linux on x86-64. What is built for a
machine that `rattle` does not name is built of that."""
import contextlib
import pathlib
import subprocess
import sys
import tempfile

ROOT = pathlib.Path(__file__).resolve().parents[1]
sys.path.insert(0, str(ROOT / "tests"))
sys.dont_write_bytecode = True
from built import KIT, rattle  # noqa: E402

CLANG = KIT / "toolchain/bin/clang"
# What stands in for the kit's clang: it keeps a copy of the module that it is handed.
KEEPER = """#!/bin/sh
for word in "$@"; do
  case $word in *.bc) cp "$word" '{to}' ;; esac
done
exec '{clang}' "$@"
"""
# The first processor of x86-64, for which a program asks nothing of the processor when it starts.
TARGET = ["--target", "x86_64-unknown-linux-gnu", "--cpu", "x86-64"]


class Failed(Exception):
    """What a command has said that failed."""


def run(words, folder, text=None):
    """Runs a command in a folder, with this text as its input, and gives what it has said."""
    ran = subprocess.run([*map(str, words)], cwd=folder, input=text or "", capture_output=True, text=True)
    if ran.returncode:
        raise Failed(f"{words[0]}: {(ran.stdout + ran.stderr).strip()}")
    return ran.stdout + ran.stderr


def compile_crate(crate, target, made, toolchain=KIT / "toolchain"):
    """Compiles a crate for a target that `rattle` names, and prints its verdict, which names the target. What its own check
    has kept serves, so no proof is made again."""
    folder = ROOT / "crates" / crate
    words = [*target, "--toolchain", toolchain, "--backend", "llvm", "--incremental", folder / "out/incremental", "-o", made]
    said = run(rattle("build", crate, *words), folder)
    verdict = [line for line in said.splitlines() if line.startswith("logic=proved ") and f" target={target[1]} " in line]
    if not verdict:
        raise Failed(f"{crate} has no verdict for {target[1]}: {said.strip()}")
    print(f"{crate} {verdict[0]}")


@contextlib.contextmanager
def keeping_toolchain(to):
    """A folder that is the kit's toolchain but for its clang, which puts the module into the file `to`."""
    real = KIT / "toolchain"
    with tempfile.TemporaryDirectory() as name:
        folder = pathlib.Path(name)
        (folder / "lib").symlink_to(real / "lib")
        (folder / "bin").mkdir()
        for tool in (real / "bin").iterdir():
            if tool != CLANG:
                (folder / "bin" / tool.name).symlink_to(tool)
        keeper = folder / "bin/clang"
        keeper.write_text(KEEPER.format(to=to, clang=CLANG), encoding="utf-8")
        keeper.chmod(0o755)
        yield folder


def module_of(crate):
    """The module of a crate, as text. Its verdict, which is printed, names Linux on x86-64."""
    with tempfile.TemporaryDirectory() as name:
        folder = pathlib.Path(name)
        with keeping_toolchain(folder / "module.bc") as toolchain:
            compile_crate(crate, TARGET, folder / "made", toolchain)
        words = ["--target=x86_64-unknown-linux-gnu", "--no-default-config", "-S", "-emit-llvm", "-O0"]
        run([CLANG, *words, "-Xclang", "-disable-llvm-passes", "-x", "ir", "module.bc", "-o", "module.ll"], folder)
        return (folder / "module.ll").read_text(encoding="utf-8")
