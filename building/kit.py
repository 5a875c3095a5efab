"""The Rattle kit on the path: whether its logic is that of the proofs, and calls of its command. What `build` writes."""

import contextlib
import os
import pathlib
import re
import signal
import subprocess
import sys

TOP = pathlib.Path(__file__).resolve().parents[1]
LOG = TOP / "out/build.log"
SIGNALS = (signal.SIGINT, signal.SIGTERM, signal.SIGHUP)
READ_ON = 'docs/PROVED.md names kits that will do, under "The kit"'


class Failed(Exception):
    """Why nothing was built, in words for the user."""


class Stopped(BaseException):
    """A signal asked for the end; its status is what shells give."""

    def __init__(self, number):
        super().__init__()
        self.status = 128 + number


def tell(text, end="\n"):
    """Writes to standard error. Where that fails there is nobody to tell."""
    if sys.stderr:
        with contextlib.suppress(OSError):
            os.write(sys.stderr.fileno(), (text + end).encode(errors="backslashreplace"))


def put(text):
    """Writes a text or bytes to standard output."""
    left = text if isinstance(text, bytes) else text.encode(errors="surrogateescape")
    while sys.stdout and left:
        left = left[os.write(sys.stdout.fileno(), left) :]


class Ending:
    """Whether a signal ends this at once, or has to wait, and which one waits."""

    waits, number = False, None


def end_on_signals():
    """Has signals raise Stopped, in which calls of the kit are ended."""

    def stop(number, _):
        # A further one would break off the ending.
        for it in SIGNALS:
            signal.signal(it, signal.SIG_IGN)
        if not Ending.waits:
            raise Stopped(number)
        Ending.number = number

    for it in SIGNALS:
        if signal.getsignal(it) is not signal.SIG_IGN:
            signal.signal(it, stop)


@contextlib.contextmanager
def without_end():
    """A signal waits until this is done."""
    Ending.waits = True
    try:
        yield
    finally:
        Ending.waits = False
        if Ending.number:
            raise Stopped(Ending.number)


def look_for_kit():
    """Fails where there is no kit, or one of another logic: it would refuse proofs only after minutes."""
    wanted = (TOP / "LOGIC").read_text(encoding="utf-8").strip()
    how = {"stdin": subprocess.DEVNULL, "stdout": subprocess.PIPE, "stderr": subprocess.STDOUT}
    try:
        said = subprocess.run(["rt", "version"], **how).stdout.decode(errors="replace").strip()
    except OSError as error:
        raise Failed(f"there is no `rt`, the command of the Rattle kit: {error.strerror}. {READ_ON}") from error
    found = re.search(r"\blogic (\S+)", said)
    if not found or found[1] != wanted:
        raise Failed(f"the proofs are in the logic {wanted}, and `rt version` prints `{said}`. {READ_ON}")


@contextlib.contextmanager
def calls():
    """Gives what calls the kit in a folder. What ends this ends those calls, too, and they end all that they have started."""
    made = []

    def call(words, folder, **how):
        # A call that has begun, and is not yet among these, would go on for itself.
        with without_end():
            made.append(subprocess.Popen(["rt", *words], cwd=TOP / folder, **how))
        return made[-1]

    try:
        yield call
    except BaseException:
        for ran in made:
            ran.terminate()
        for ran in made:
            with contextlib.suppress(subprocess.TimeoutExpired):
                ran.wait(10)
            ran.kill()
        raise


class Lines:
    """The lines of a pipe, as they come."""

    def __init__(self, pipe):
        self.pipe, self.rest = pipe, b""

    def fileno(self):
        return self.pipe.fileno()

    def read(self):
        """The lines that have come since, and whether these are the last."""
        more = os.read(self.fileno(), 1 << 16)
        *whole, self.rest = (self.rest + more).split(b"\n")
        return whole + [self.rest] * (bool(self.rest) and not more), not more


if __name__ == "__main__":
    try:
        look_for_kit()
    except Failed as error:
        tell(f"check: {error}")
        sys.exit(1)
