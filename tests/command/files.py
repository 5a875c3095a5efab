"""Files for tests of the command `hunk`, and the call of it."""

import contextlib
import io
import os
import pathlib
import signal
import subprocess
import sys

TOP = pathlib.Path(__file__).resolve().parents[2]
COMMAND = [sys.executable, "-W", "error", "-m", "hunk"]
# Prints how many bytes of addresses the command takes to begin, with the modules of all that it can do.
PEAK = """import re, hunk.command
[*map(hunk.command.module_of, hunk.command.NAMES)]
print(1024 * int(re.search(r"VmPeak:\\s*(\\d+)", open("/proc/self/status").read())[1]))"""
ENVIRONMENT = {**os.environ, "PYTHONPATH": str(TOP / "bindings/python"), "PYTHONDONTWRITEBYTECODE": "1"}

# A unit `a` of two hunks: CODE of 16 bytes in chip memory, with a relocation at 2 of what stands 8 bytes on in hunk 1, and an EXT
# block that defines _a and _c, and refers to _b at 8 and to the common block _d at 12; and a BSS of 16 bytes with a symbol.
OBJECT = """000003e7 00000001 61000000
    400003e9 00000004 4eb90000 00084eb9 00000000 00000000
    000003ec 00000001 00000001 00000002 00000000
    000003ef 01000001 5f610000 00000004 81000001 5f620000 00000001 00000008
    02000001 5f630000 00001234 82000001 5f640000 00000010 00000001 0000000c 00000000 000003f2
    000003eb 00000004 000003f0 00000001 62756600 00000008 00000000 000003f2"""
# A load file with a short block, and without its last END.
WIDE = "000003f3 00000000 00000001 00000000 00000000 00000002 000003e9 00000002 00000004 00000000 000003fc 0001000000000000"
# Two hunks: CODE of 4 bytes with a symbol, and its END; and a DATA of 8 bytes in chip memory, of which 4 are there.
CUT = """000003f3 00000000 00000002 00000000 00000001 00000001 40000002
    000003e9 00000001 4e714e75 000003f0 00000001 5f6d0000 00000002 00000000 000003f2 000003ea 00000002 00000007"""


def suite(table):
    """The files of a table of the conformance suite, by name."""
    lines = (TOP / f"vectors/{table}.tsv").read_text(encoding="utf-8").splitlines()[1:]
    return {name: bytes.fromhex(text) for _, name, text, *_ in (line.split("\t") for line in lines)}


def warned():
    """The load files of vectors/warnings.tsv, each with its warnings as the table has them."""
    lines = (TOP / "vectors/warnings.tsv").read_text(encoding="utf-8").splitlines()[1:]
    return {name: (bytes.fromhex(text), told) for name, text, told in (line.split("\t") for line in lines)}


def with_symbols(data):
    """sum.hex with a symbol in front of the END of each hunk."""
    blocks = ("000003f0 00000002 7461626c 65000000 00000020 00000000", "000003f0 00000001 73756d00 00000004 00000000")
    return data[:116] + bytes.fromhex(blocks[0]) + data[116:128] + bytes.fromhex(blocks[1]) + data[128:]


def make(folder):
    """Makes the files that the tests name."""
    load, objects = suite("load"), suite("objects")
    folder.mkdir()
    sum_text = (TOP / "bindings/c/examples/sum.hex").read_text(encoding="utf-8")
    made = {
        "sum": bytes.fromhex(sum_text), "part.o": bytes.fromhex(OBJECT), "wide": bytes.fromhex(WIDE), "cut": bytes.fromhex(CUT),
        "symbol": load["symbol"], "attributes": load["attributes-and-two-contents"], "text": b"text", "empty": b"",
        "overlay": load["overlay"], "unknown": load["unknown-block"], "behind": load["bytes-behind"],
        "findings.o": objects["two-findings"],
    }
    for name, data in made.items():
        (folder / name).write_bytes(data)


def start(words, folder, **streams):
    """The command with these words, as it runs. ^C ends it, also where the test itself leaves it alone."""
    return subprocess.Popen([*COMMAND, *words], cwd=folder, env=ENVIRONMENT, bufsize=0,
                            preexec_fn=lambda: signal.signal(signal.SIGINT, signal.SIG_DFL), **streams)


def called(words):
    """The same here and in this process, which takes less: the folder is the one of the process."""
    from hunk import command

    out, err = io.TextIOWrapper(io.BytesIO()), io.StringIO()
    with contextlib.redirect_stdout(out), contextlib.redirect_stderr(err):
        status = command.main(words)
    return out.buffer.getvalue().decode(), err.getvalue(), status


def hunk(*words, folder, given=b""):
    """What the command prints, says, and its status."""
    ran = subprocess.run([*COMMAND, *words], cwd=folder, env=ENVIRONMENT, input=given, capture_output=True, timeout=120)
    return ran.stdout.decode(), ran.stderr.decode(), ran.returncode


def raw(*words, folder, given=b"", **more):
    """The bytes that the command prints, what it says, and its status."""
    ran = subprocess.run([*COMMAND, *words], cwd=folder, env=ENVIRONMENT, input=given, capture_output=True, timeout=120,
                         **more)
    return ran.stdout, ran.stderr.decode(), ran.returncode


def call(*words, folder):
    """The same as texts, in this process, which takes less time."""
    before = os.getcwd()
    os.chdir(folder)
    try:
        return called(words)
    finally:
        os.chdir(before)
