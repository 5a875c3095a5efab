"""What the command `hunk` does where its standard streams are closed, full, or not to be used: what it prints, and its status."""

import json
import subprocess

import files
import wanted
from compared import same

# What stands in front of a command line of the shell, which is ended by its redirections.
COMMAND = ' "$0" -W error -m hunk '
EBADF = "hunk: writing failed: Bad file descriptor\n"
SUMMARY = "1 file: 1 load, 0 object, 0 findings, 0 wide, 0 no hunk file, 0 not supported, 0 damaged, 0 not judged\n"


def shell(line, home):
    """What the words print, say, and their status, with these redirections, by a shell that has standard streams itself."""
    ran = subprocess.run(["sh", "-c", f"{COMMAND}{line}", files.COMMAND[0]], cwd=home, env=files.ENVIRONMENT, timeout=120,
                         stdin=subprocess.DEVNULL, capture_output=True)
    return ran.stdout.decode(), ran.stderr.decode(), ran.returncode


def same_without_error(home):
    """Standard error that is closed or full changes neither what is printed nor the status."""
    (home / "folder-of-two").mkdir()
    for name in ("symbol", "text"):
        (home / "folder-of-two" / name).write_bytes((home / name).read_bytes())
    for words in ("show text none symbol", "json text symbol", "nm sum symbol", "show --wide wide", "diff symbol text", "none", "",
                  "survey text symbol", "survey --jobs 2 folder-of-two symbol", "lint text warned/twice symbol", "dump --budget x sum",
                  "explain none", "--version"):
        printed, _, status = shell(words, home)
        for error in ("2>&-", "2>/dev/full"):
            same(f"hunk {words} {error}", shell(f"{words} {error}", home), (printed, "", status))
    same("hunk json 2>&-", [it["name"] for it in json.loads(shell("json text symbol 2>&-", home)[0])], ["symbol"])
    same("hunk show 2>/dev/full", shell("show text symbol 2>/dev/full", home), (f"== symbol\n{wanted.SHOWN_SYMBOL}", "", 1))


def no_output(home):
    """Standard output that is closed or full is told in a line, where something is to be written to it."""
    for words in ("show symbol", "--help", "--version", "json symbol text", "survey symbol", "diff symbol sum", "lint warned/twice"):
        for output, why in ((">&-", EBADF), (">/dev/full", "hunk: writing failed: No space left on device\n")):
            _, said, status = shell(f"{words} {output}", home)
            same(f"hunk {words} {output}", (said.splitlines(True)[-1:], status), ([why], 3))
    same("hunk show >&- 2>&-", shell("show symbol >&- 2>&-", home), ("", "", 3))
    for words, status in (("none", 2), ("show text", 1), ("diff text symbol", 2), ("lint text symbol", 2)):
        said = shell(words, home)[1]
        same(f"hunk {words} >&-", shell(f"{words} >&-", home), ("", said, status))


def no_input(home):
    """Standard input that is closed can't be read."""
    said = "hunk: -: EBADF: Bad file descriptor (not judged)\n"
    same("hunk show - <&-", shell("show - symbol <&-", home), (f"== symbol\n{wanted.SHOWN_SYMBOL}", said, 1))
    same("hunk show - <&- 2>&-", shell("show - symbol <&- 2>&-", home), (f"== symbol\n{wanted.SHOWN_SYMBOL}", "", 1))
    same("hunk lint - <&-", shell("lint - symbol <&-", home), ("", said, 2))
    printed, _, status = shell("survey - symbol --jobs 2 <&-", home)
    same("hunk survey - <&-", (printed, status), ("not judged\tEBADF\t-\t-\t-\nload\t-\t-\t0\tsymbol\n", 1))


def no_number(home):
    """No file gets the number of a standard stream: a table has its rows and nothing else, also where workers write none."""
    for closed in ("<&-", ">&-", "2>&-", "<&- >&-", "<&- 2>&-", ">&- 2>&-", "<&- >&- 2>&-"):
        _, said, status = shell(f"survey --resume streams --jobs 2 symbol {closed}", home)
        same(f"a table, {closed}", (home / "streams").read_text(), f"{wanted.TABLE_HEAD}load\t-\t-\t0\tsymbol\n")
        same(f"a table, {closed}", (said, status), ("" if "2>" in closed else SUMMARY, 0))
        (home / "streams").unlink()


def tried(home):
    same_without_error(home)
    no_output(home)
    no_input(home)
    no_number(home)
