"""Processes that do parts of the work of this one. None of them outlives it. Where there are none, it has to do all by itself."""

from __future__ import annotations

import contextlib
import os
import signal
import sys
import threading

from hunk.command import streams

TYPE_CHECKING = False
if TYPE_CHECKING:
    from typing import Any, Callable, Iterator, List, Optional, Sequence

# As many as Windows can wait for at once.
MOST = 61
STACK = 1 << 18


# ---- In such a process.


def end_with(life: Any) -> None:
    """Ends this process when the one that holds the other end of the pipe has ended, whatever is done here then."""
    def wait() -> None:
        with contextlib.suppress(EOFError, OSError):
            life.recv_bytes()
        os._exit(0)

    # Without a thread it ends when it has done its part.
    with contextlib.suppress(RuntimeError, ValueError, MemoryError):
        threading.stack_size(STACK)
        threading.Thread(target=wait, daemon=True).start()


def serve(asked: Any, life: Any, others: Sequence[Any], act: Callable[[Any], Any]) -> None:
    """Does the parts that it is asked for, until nobody is there to ask."""
    # ^C ends the process that asks, and so this one.
    signal.signal(signal.SIGINT, signal.SIG_IGN)
    for it in others:
        it.close()
    streams.let_go()
    end_with(life)
    with contextlib.suppress(EOFError, OSError, MemoryError):
        while True:
            asked.send(act(asked.recv()))


# ---- In the one that starts them.


class Part:
    """A part of the work. It has an answer where a process has done it, and a worker while one does it."""

    def __init__(self, given: Any) -> None:
        self.given = given
        self.answer: Any = None
        self.worker: Optional[Worker] = None


class Worker:
    """A process, the pipe to it, and the part that it does."""

    def __init__(self, process: Any, pipe: Any) -> None:
        self.process, self.pipe = process, pipe
        self.part: Optional[Part] = None

    def end(self) -> None:
        """It keeps nothing, so it may be ended at any time."""
        self.pipe.close()
        self.process.kill()
        self.process.join()


@contextlib.contextmanager
def no_interrupts() -> Iterator[None]:
    """Lets ^C wait, so that a process that begins does not see it before it can leave it alone."""
    if not hasattr(signal, "pthread_sigmask"):
        yield
        return
    before = signal.pthread_sigmask(signal.SIG_BLOCK, {signal.SIGINT})
    try:
        yield
    finally:
        signal.pthread_sigmask(signal.SIG_SETMASK, before)


class Workers:
    """At most so many processes, each started when there is work for it. Those that the system refuses are done without."""

    def __init__(self, most: int, act: Callable[[Any], Any]) -> None:
        import multiprocessing
        from multiprocessing.connection import wait

        # Elsewhere a process reads anew what this one was started by, and inherits no pipe.
        self._is_fork = sys.platform == "linux"
        self._context: Any = multiprocessing.get_context("fork" if self._is_fork else None)
        self._life, self._our_life = self._context.Pipe(duplex=False)
        self._wait: Callable[[List[Any]], List[Any]] = wait
        self._act = act
        self._left = min(most, MOST)
        self._all: List[Worker] = []

    def __enter__(self) -> Workers:
        return self

    def __exit__(self, *_: Any) -> None:
        self._our_life.close()
        for it in self._all:
            it.end()

    def _start(self) -> Optional[Worker]:
        """One more, unless that is refused: then those that are there have to do."""
        # What is not written yet would be written twice.
        sys.stdout.flush()
        pipe: Sequence[Any] = ()
        try:
            pipe = ours, theirs = self._context.Pipe()
            others = [self._our_life, ours, *(it.pipe for it in self._all)] if self._is_fork else []
            process = self._context.Process(target=serve, args=(theirs, self._life, others, self._act), daemon=True)
            with no_interrupts():
                process.start()
        except (OSError, MemoryError, RuntimeError):
            self._left = 0
            for it in pipe:
                it.close()
            return None
        theirs.close()
        self._left -= 1
        self._all.append(Worker(process, ours))
        return self._all[-1]

    def _lose(self, worker: Worker) -> None:
        """Goes on without it. What it had to do has no answer."""
        self._all.remove(worker)
        if worker.part:
            worker.part.worker = None
        worker.end()

    def are_there(self) -> bool:
        """Whether there are some, or may be."""
        return bool(self._all) or self._left > 0

    def give(self, part: Part) -> bool:
        """Whether one has taken the part. Else all of them are busy, or there are none."""
        worker = next((it for it in self._all if it.part is None), None)
        if worker is None and self._left > 0:
            worker = self._start()
        if worker is None:
            return False
        try:
            worker.pipe.send(part.given)
        except (OSError, MemoryError):
            self._lose(worker)
            return False
        worker.part, part.worker = part, worker
        return True

    def receive(self) -> None:
        """Waits for answers."""
        busy = {it.pipe: it for it in self._all if it.part}
        for pipe in self._wait([*busy]) if busy else ():
            worker = busy[pipe]
            try:
                answer = pipe.recv()
            except (EOFError, OSError, MemoryError):
                self._lose(worker)
                continue
            if worker.part:
                worker.part.answer, worker.part.worker = answer, None
            worker.part = None
