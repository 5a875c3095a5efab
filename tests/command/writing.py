"""That `hunk strip` and `hunk convert` write OUT whole or not at all: where IN is refused, where OUT can't be written, and where
writing it ends early."""

import contextlib
import errno
import os
import pathlib
import resource
import stat
import subprocess
from unittest import mock

import files
import refused
from compared import same
from converting import STRIPPED
from files import call, raw

LARGEST, RELOCATIONS = 4096, 100_000


def listed(folder):
    """What is in a folder, by name: links, bytes and rights."""
    found = {}
    for it in sorted(os.scandir(folder), key=lambda it: it.name):
        data = pathlib.Path(it.path).read_bytes() if it.is_file() else None
        found[it.name] = (it.is_symlink() and os.readlink(it.path), data, stat.S_IMODE(it.stat().st_mode))
    return found


def small(most):
    """Lets no file of a process have more bytes."""
    return lambda: resource.setrlimit(resource.RLIMIT_FSIZE, (most, most))


def untouched(home):
    """Where IN is refused, OUT is as it was, and there is none where there was none."""
    there = home / "untouched"
    there.mkdir()
    for name in ("text", "overlay", "cut", "symbol"):
        (there / name).write_bytes((home / name).read_bytes())
    (there / "old").write_bytes(b"before")
    os.chmod(there / "old", 0o640)
    before = listed(there)
    for name in ("text", "overlay", "cut", "none", "."):
        for out in ("old", "new", "-", name):
            for words in (("strip",), ("convert", "--to", "elf"), ("convert", "--to", "bin", "--base", "0")):
                printed, said, status = call(*words, name, out, folder=there)
                same(f"{words} {name} {out}", (printed, said.count("\n"), status), ("", 1, 1))
    same("what is there after refusals", listed(there), before)
    return there


def places(there):
    """Where OUT may be: new, in the place of a file with its rights, behind a link, with any name, a pipe."""
    data = files.suite("load")["one-hunk"]
    (there / "deep").mkdir()
    os.symlink("deep/target", there / "link")
    for name in (b"old", b"new", b"link", b"deep/\xe4\xff\n\\", b"-x", b"n" * 255):
        words = ("strip", "--", "symbol", name) if name.startswith(b"-") else ("strip", "symbol", name)
        same(f"strip to {name}", raw(*words, folder=there)[::2], (STRIPPED.encode(), 0))
        with open(os.path.join(os.fsencode(there), name), "rb") as made:
            same(f"OUT {name}", made.read(), data)
    same("OUT keeps its rights", stat.S_IMODE((there / "old").stat().st_mode), 0o640)
    same("OUT keeps its link", (os.readlink(there / "link"), (there / "deep/target").read_bytes()), ("deep/target", data))
    os.mkfifo(there / "pipe")
    reader = subprocess.Popen(["cat", "pipe"], cwd=there, stdout=subprocess.PIPE)
    same("strip to a pipe", raw("strip", "symbol", "pipe", folder=there)[::2], (STRIPPED.encode(), 0))
    same("what came through it", reader.communicate()[0], data)
    # What is standard output by another name gets nothing else, too.
    for line in ("strip symbol /dev/stdout | cat", "strip symbol /dev/fd/1 | cat"):
        ran = subprocess.run(["sh", "-c", f'"$0" -m hunk {line}', files.COMMAND[0]], cwd=there, env=files.ENVIRONMENT,
                             capture_output=True, timeout=60)
        same(line, ran.stdout, data)


def not_written(there):
    """OUT that can't be written: a line says why, the status is 3, and all is as it was."""
    before = listed(there)
    failing = {"deep": "Is a directory", "none/out": "No such file or directory", "symbol/out": "Not a directory", "": "No such file",
               "new/": "Not a directory", "missing/": "No such file or directory", "/dev/full": "No space left on device",
               "n" * 256: "File name too long"}
    for out, why in failing.items():
        for words in (("strip",), ("convert", "--to", "elf")):
            printed, said, status = call(*words, "symbol", out, folder=there)
            same(f"{words} to {out!r}", (printed, said.startswith(f"hunk: {out}: writing failed: {why}"), status), ("", True, 3))
    if os.geteuid():
        os.chmod(there / "new", 0o444)
        same("a file that may not be written", call("strip", "symbol", "new", folder=there)[1:],
             ("hunk: new: writing failed: Permission denied\n", 3))
        os.chmod(there / "new", before["new"][2])
    for stream, what in ((">", "output"), ("2>", "error")):
        line = f'"$0" -W error -m hunk strip symbol stream {stream} stream'
        ran = subprocess.run(["sh", "-c", line, files.COMMAND[0]], cwd=there, env=files.ENVIRONMENT, capture_output=True, timeout=60)
        said = f"hunk: stream: writing failed: this is standard {what}\n".encode()
        same(line, (ran.stderr + (there / "stream").read_bytes(), ran.returncode), (said, 3))
        os.unlink(there / "stream")
    same("what is there after failures", listed(there), before)


def ended_early(home, there):
    """A disk that gets full, and standard output that takes no more: no half of OUT stays."""
    large = refused.load_file(LARGEST, 4 * LARGEST - 4)
    (there / "large").write_bytes(large)
    before = listed(there)
    for out in ("old", "fresh"):
        for words in (("strip",), ("convert", "--to", "elf"), ("convert", "--to", "srec", "--base", "0")):
            printed, said, status = raw(*words, "large", out, folder=there, preexec_fn=small(LARGEST))
            same(f"{words} on a full disk", (printed, said, status), (b"", f"hunk: {out}: writing failed: File too large\n", 3))
    same("what is there after a full disk", listed(there), before)
    for words in ("strip large -", "convert --to elf large -", "convert --to ihex --base 0 large -", "relocate --to bin --base 0 large"):
        for output, said, status in ((">&-", "Bad file descriptor", 3), (">/dev/full", "No space left on device", 3)):
            ran = subprocess.run(["sh", "-c", f'"$0" -W error -m hunk {words} {output}', files.COMMAND[0]], cwd=there,
                                 env=files.ENVIRONMENT, capture_output=True, timeout=60)
            same(f"{words} {output}", (ran.stderr.decode(), ran.returncode), (f"hunk: writing failed: {said}\n", status))
        ran = files.start(words.split(), there, stdout=subprocess.PIPE, stderr=subprocess.PIPE)
        ran.stdout.close()
        said = ran.stderr.read().decode()
        ran.stderr.close()
        same(f"{words} | head", (said, ran.wait()), ("", 141))


def failing(error):
    def fail(*_):
        raise error

    return fail


def kept(there):
    """OUT is on the disk before it gets its name. Where that fails, or ^C comes before, all is as it was."""
    before, calls = listed(there), []
    noted = {it: (lambda *words, it=it, real=getattr(os, it): (calls.append(it), real(*words))[1]) for it in ("write", "fsync", "replace")}
    for changes, said, status in (
        ({"fsync": failing(OSError(errno.EIO, "lost"))}, "hunk: old: writing failed: lost\n", 3),
        ({"replace": failing(OSError(errno.EBUSY, "busy"))}, "hunk: old: writing failed: busy\n", 3),
        ({"write": failing(KeyboardInterrupt())}, "", 130),
    ):
        with contextlib.ExitStack() as undone:
            for name, new in changes.items():
                undone.enter_context(mock.patch.object(os, name, new))
            same(f"strip where {[*changes]} fails", call("strip", "large", "old", folder=there), ("", said, status))
        same(f"what is there where {[*changes]} fails", listed(there), before)
    with contextlib.ExitStack() as undone:
        for name, new in noted.items():
            undone.enter_context(mock.patch.object(os, name, new))
        same("strip", call("strip", "large", "old", folder=there)[2], 0)
    # The last is of the folder.
    same("what keeps OUT", calls[-4:], ["write", "fsync", "replace", "fsync"])


def little_memory(there):
    """Where memory is refused, OUT is as it was, and a line says so."""
    (there / "m4").write_bytes(refused.load_file(RELOCATIONS, 4 * RELOCATIONS - 4))
    begins, seen = refused.peak(), set()
    before = listed(there)
    for words in (["strip"], ["convert", "--to", "elf"], ["convert", "--to", "srec", "--base", "0"], ["relocate", "--base", "0"]):
        for step in (0, 1, 2, 6):
            out = [] if words[0] == "relocate" else ["new"]
            printed, said, status = refused.limited([*words, "m4", *out], there, begins + step * refused.STEP)
            seen.add(status)
            if status == 1:
                same(f"{words} with {step} steps", (printed, said), ("", f"hunk: m4: {refused.NO_MEMORY}"))
                same(f"{words} with {step} steps", listed(there), before)
            elif out:
                before = listed(there)
    same("what is refused in little memory", 1 in seen, True)
    os.unlink(there / "m4")


def tried(home):
    there = untouched(home)
    places(there)
    not_written(there)
    ended_early(home, there)
    kept(there)
    little_memory(there)
