"""Asks a hunkinfo about many inputs. A shell that runs it on file after file takes a third of the time of a call from here."""
import os
import pathlib
import re
import shlex
import shutil
import subprocess
import sys
import tempfile
from concurrent.futures import ThreadPoolExecutor

ACCEPTED = re.compile(r"(?m)^(?:load|object) file (\d+) (?:hunks|units) (\d+) (?:bytes|findings)")
REFUSED = re.compile(r"(?m)^refused at byte (\d+): \w+ \((\d+)\)")


def answer(said):
    """The answer in what `validate` prints, as the tables have it: a word, and two numbers. None where it is no answer."""
    for pattern, word in ((ACCEPTED, "accepted"), (REFUSED, "refused")):
        found = pattern.search(said)
        if found:
            return word, int(found[1]), int(found[2])
    return None


def shell(folder, program, orders):
    """What one shell has printed after each of these orders: the number of a file, and words, in which IN and OUT name files."""
    lines = [f"program={shlex.quote(program)}"]
    for number, words in orders:
        named = " ".join({"IN": f"{number}", "OUT": f"{number}.out"}.get(word, word) for word in words)
        lines.append(f'echo "= "; "$program" {named}')
    ran = subprocess.run(["sh"], input="\n".join(lines), cwd=folder, stdout=subprocess.PIPE, stderr=subprocess.DEVNULL, text=True)
    return ran.stdout.split("= \n")[1:]


def ask(program, inputs):
    """What the program prints for each input, which is its bytes and a list of orders; and what an order has written to OUT, or
    None. An order is the words of a command line, with IN and OUT for files."""
    program = str(pathlib.Path(program).resolve())
    if not shutil.which(program):
        sys.exit(f"{program} is no program that can be run")
    place = "/dev/shm" if os.access("/dev/shm", os.W_OK) else None
    with tempfile.TemporaryDirectory(dir=place) as folder:
        for number, (data, _) in enumerate(inputs):
            pathlib.Path(folder, str(number)).write_bytes(data)
        orders = [(number, words) for number, (_, them) in enumerate(inputs) for words in them]
        size = max(1, min(1000, -(-len(orders) // os.cpu_count())))
        pieces = [orders[at : at + size] for at in range(0, len(orders), size)]
        with ThreadPoolExecutor(os.cpu_count()) as pool:
            said = iter([one for piece in pool.map(lambda piece: shell(folder, program, piece), pieces) for one in piece])
        for number, (_, them) in enumerate(inputs):
            out = pathlib.Path(folder, f"{number}.out")
            yield [next(said) for _ in them], out.read_bytes() if out.exists() else None
