"""What `hunk survey --resume` takes for a table: what it began itself, or a new name. All else is as it was."""

import json
import os
import resource
import stat
import subprocess

import files
from compared import same
from files import hunk

HEAD, SUM_HEAD = "class\treason\tbyte\trest\tname", "class\treason\tbyte\trest\tsha256\tfirst\tname"
JSON_HEAD = '{"fields": ["class", "reason", "byte", "rest", "name"]}'
JSON_SUM_HEAD = '{"fields": ["class", "reason", "byte", "rest", "sha256", "first", "name"]}'
ROW, JSON_ROW = "load\t-\t-\t0\tsymbol", '{"class": "load", "reason": null, "byte": null, "rest": 0, "name": "symbol"}'
SUM = "3" * 64
SUM_ROW = f"load\t-\t-\t0\t{SUM}\t-\tsymbol"
WANTED = "--resume takes a new name, or a table that it began with the same flags"
NO_ROW = "line {} is no row of this form of survey"


def refuses(home, name, said, *words):
    """That a name is refused in a line, with what is there as it was."""
    before = os.lstat(home / name)
    is_file = stat.S_ISREG(before.st_mode)
    data = (home / name).read_bytes() if is_file and before.st_size < 1 << 24 else None
    call = ["survey", "--resume", name, *words, "sum"]
    got = files.called(call) if is_file else hunk(*call, folder=home)
    same(f"--resume {name} {words}", got, ("", f"hunk: {name}: {said}\n", 2))
    after = os.lstat(home / name)
    same(f"{name} after it", (after.st_mode, after.st_size, after.st_mtime_ns), (before.st_mode, before.st_size, before.st_mtime_ns))
    same(f"{name} after it", (home / name).read_bytes() if data is not None else None, data)


def head_text(head):
    return f"{WANTED}, with the first line {head!r}; put that in front of a table of an older version"


def other_files(home):
    """Files that are no table: among others hunk files, without a byte 0A and with one."""
    for name in ("symbol", "sum", "text", "part.o", "long"):
        for words, head in (([], HEAD), (["--json"], JSON_HEAD), (["--json", "--sha256"], JSON_SUM_HEAD)):
            refuses(home, name, head_text(head), *words)
    made = {
        "t-newline": b"\n", "t-half-head": HEAD[:20].encode(), "t-head-alone": HEAD.encode(), "t-crlf": f"{HEAD}\r\n{ROW}\r\n".encode(),
        "t-old": f"{ROW}\n".encode(), "t-sum": f"{SUM_HEAD}\n{SUM_ROW}\n".encode(), "t-json": f"{JSON_HEAD}\n{JSON_ROW}\n".encode(),
    }
    for name, data in made.items():
        (home / name).write_bytes(data)
        refuses(home, name, head_text(HEAD))
    refuses(home, "t-sum", head_text(JSON_HEAD), "--json")
    refuses(home, "t-json", head_text(SUM_HEAD), "--sha256")
    # All of a table is looked at before anything is written.
    (home / "t-rows").write_text(f"{HEAD}\n{ROW}\n{ROW}\nnotes of mine\n{ROW}\nload\t-")
    refuses(home, "t-rows", NO_ROW.format(4))


def special_files(home):
    """What is no regular file is refused at once, and a link to one is followed."""
    os.mkfifo(home / "t-pipe")
    os.symlink("t-pipe", home / "t-link")
    (home / "t-folder").mkdir()
    for name in ("t-pipe", "t-link", "t-folder", "/dev/full", "/dev/null", "/dev/zero"):
        refuses(home, name, f"{WANTED}: this is no regular file")
    for stream, redirected in (("output", "> t-out"), ("error", "2> t-err")):
        name = redirected.split()[1]
        line = f'"$0" -W error -m hunk survey --resume {name} symbol {redirected}'
        ran = subprocess.run(["sh", "-c", line, files.COMMAND[0]], cwd=home, env=files.ENVIRONMENT, capture_output=True, timeout=60)
        said = f"hunk: {name}: {WANTED}: this is standard {stream}\n".encode()
        same(f"--resume {name} {redirected}", (ran.stderr + (home / name).read_bytes(), ran.returncode), (said, 2))


def lines_of_any_shape(home):
    """Lines that JSON or the fields of a row make of it what they may: each is refused in a line."""
    good = json.loads(JSON_ROW)
    shapes = ["[]", "1", "null", '"class"', "{}", "[" * 100_000, '{"a":' * 50_000, "9" * 100_000, "-" * 9, "NaN", "", "{", "\ud83d"]
    shapes += [json.dumps({**good, key: value}) for key in good for value in ([], {}, [[]], {"a": 1})]
    shapes += [json.dumps({**good, "name": 5}), json.dumps({**good, "class": "none"}), json.dumps({**good, "byte": "1"}),
               json.dumps(dict(reversed(good.items()))), JSON_ROW.replace("0", "9" * 5000), JSON_ROW + " " + JSON_ROW]
    for shape in shapes:
        (home / "t-shape").write_bytes(f"{JSON_HEAD}\n{JSON_ROW}\n".encode() + shape.encode("utf-8", "surrogatepass") + b"\n")
        refuses(home, "t-shape", NO_ROW.format(3), "--json")
    row = json.dumps({**good, "sha256": [], "first": None, "name": "a"}).replace('"name": "a", "sha256": [], "first": null',
                                                                                 '"sha256": [], "first": null, "name": "a"')
    (home / "t-shape").write_text(f"{JSON_SUM_HEAD}\n{row}\n")
    refuses(home, "t-shape", NO_ROW.format(2), "--json", "--sha256")
    for shape in (b"\xff", b"load", b"load\t-\t-\t0\tsymbol\tmore", b"none\t-\t-\t0\tsymbol", b"load\t-\tx\t0\tsymbol", b"load\t-\t-\t0\t"):
        (home / "t-shape").write_bytes(f"{HEAD}\n{ROW}\n".encode() + shape + b"\n")
        refuses(home, "t-shape", NO_ROW.format(3))


def long_lines(home):
    """A line of 8 GiB is refused in little memory."""
    for begun, number in ((f"{HEAD}\n{ROW}\n", 3), ("", 1)):
        (home / "t-long").write_text(begun)
        os.truncate(home / "t-long", 1 << 33)
        ran = subprocess.run([*files.COMMAND, "survey", "--resume", "t-long", "symbol"], cwd=home, env=files.ENVIRONMENT, timeout=60,
                             capture_output=True, preexec_fn=lambda: resource.setrlimit(resource.RLIMIT_AS, (1 << 30, 1 << 30)))
        said = f"hunk: t-long: line {number} is longer than a row can be\n" if begun else f"hunk: t-long: {head_text(HEAD)}\n"
        same("a line of 8 GiB", (ran.stderr.decode(), ran.returncode, os.stat(home / "t-long").st_size), (said, 2, 1 << 33))
    os.unlink(home / "t-long")


def tables(home):
    """New and empty files, and tables that are gone on with: their rows, with a part of one that is cut off."""
    (home / "t-empty").touch()
    (home / "t-only").write_text(f"{HEAD}\n")
    (home / "t-some").write_text(f"{HEAD}\nload\t-\t-\t0\tgone\n{ROW[:9]}")
    for name, kept in (("t-new", ""), ("t-empty", ""), ("t-only", ""), ("t-some", "load\t-\t-\t0\tgone\n")):
        for _ in range(2):
            status = files.called(["survey", "--resume", name, "symbol"])[2]
            same(f"--resume {name}", (status, (home / name).read_text()), (0, f"{HEAD}\n{kept}{ROW}\n"))
    for name, words, head in (("t-json-new", ["--json"], JSON_HEAD), ("t-sums-new", ["--json", "--sha256"], JSON_SUM_HEAD)):
        for _ in range(2):
            status = files.called(["survey", "--resume", name, *words, "symbol"])[2]
            lines = (home / name).read_text().splitlines()
            same(f"--resume {name}", (status, lines[0], len(lines), json.loads(lines[1])["name"]), (0, head, 2, "symbol"))
    # An older table, as the page says.
    (home / "t-older").write_text(f"{HEAD}\n" + (home / "t-old").read_text())
    same("an older table", files.called(["survey", "--resume", "t-older", "symbol"])[2], 0)
    same("an older table", (home / "t-older").read_text(), f"{HEAD}\n{ROW}\n")


def tried(home):
    os.chdir(home)
    other_files(home)
    special_files(home)
    lines_of_any_shape(home)
    long_lines(home)
    tables(home)
    os.chdir(files.TOP)
