"""The processor milliseconds of a command on a file beside plain programs that do the same, each compiled by another
compiler. They are run in turn, and of each the least of the rounds counts; of the plain ones the quickest does. All have
to print, and write, the same."""
import os
import subprocess


def words(command, name, out, is_plain, is_hex=False):
    """What a command is called with."""
    if is_plain:
        return ["hex" if is_hex else command, name, *([out] if command in ("rewrite", "strip") else [])]
    flags = {"relocate": ["--base", "00021000", "--budget", "4000000000"], "strip": ["--strip"]}.get(command, [])
    outs = [out] if command in ("rewrite", "strip") else []
    return ["rewrite" if command == "strip" else command, *flags, *(["--hex"] if is_hex else []), name, *outs]


def milliseconds(program, given):
    """How long one run takes of the processor."""
    null = os.open("/dev/null", os.O_RDWR)
    actions = [(os.POSIX_SPAWN_DUP2, null, it) for it in range(3)]
    os.posix_spawnp(program, [program, *given], os.environ, file_actions=actions)
    _, _, used = os.wait4(-1, 0)
    os.close(null)
    return (used.ru_utime + used.ru_stime) * 1e3


def left_by(program, given, out):
    """What a run prints and writes."""
    out.unlink(missing_ok=True)
    said = subprocess.run([program, *given], stdout=subprocess.PIPE, stderr=subprocess.DEVNULL).stdout
    return said, out.read_bytes() if out.exists() else b""


def compared(rounds, program, plain, file, command, out, is_hex=False):
    """The milliseconds of a command on a file, those of the quickest plain program, and whether they print and write the
    same. With `is_hex` the input is the file in hexadecimal text."""
    if is_hex:
        text = file.with_suffix(".hex")
        text.write_text(file.read_bytes().hex())
        file = text
    programs = [program, *plain]
    given = [words(command, str(file), str(out), at > 0, is_hex) for at in range(len(programs))]
    left = left_by(program, given[0], out)
    same = all(left == left_by(*it, out) for it in zip(programs[1:], given[1:]))
    rows = [[milliseconds(*it) for it in zip(programs, given)] for _ in range(rounds)]
    ours, *theirs = (min(it) for it in zip(*rows))
    return [ours, min(theirs)], same
