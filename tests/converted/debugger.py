"""gdb, and the machine of qemu with a 68020 on which it runs a program of ELF."""

import subprocess
import time

# Where that machine has memory, and so where the program lies.
RAM = 0x40001000
KNOWN = {
    "info symbol 0x40001034": "sum in section .bss.hunk1",
    "info symbol 0x40001022": "table + 2 in section .text.hunk0",
    "x/wx &table": "0x40001020 <table>:\t0x11111111",
    "x/2i 0x40001000": "lea 0x40001020 <table>,%a0",
    "disassemble 0x40001000,0x40001018": "dbf %d1,0x4000100e <loop>",
    "info files": "0x40001030 - 0x4000103c is .bss.hunk1",
    "info target": "Entry point: 0x40001000",
}
# The second time d1 is one less. After the loop the sum of 11111111, 02222222, 00333333 and 00044444 is in memory.
STOPS = (
    ("break loop", "Breakpoint 1 at 0x4000100e"),
    ("continue", "Breakpoint 1, 0x4000100e in loop ()"),
    ("print $d1", "$1 = 3"),
    ("continue", "Breakpoint 1, 0x4000100e in loop ()"),
    ("print $d1", "$2 = 2"),
    ("delete", ""),
    ("break *0x40001018", "Breakpoint 2 at 0x40001018"),
    ("continue", "Breakpoint 2, 0x40001018 in loop ()"),
    ("x/wx &sum", "0x40001034:\t0x136aaaaa"),
)


def asked(path, *commands):
    """What gdb prints, when it has the file."""
    words = [it for command in commands for it in ("-ex", command)]
    ran = subprocess.run(["gdb-multiarch", "-nx", "-q", "-batch", *words, path], capture_output=True, text=True, timeout=60)
    return ran.stdout


def stands(path):
    """Each text that gdb has to print of a program that has not begun, and whether it does."""
    told = asked(path, *KNOWN)
    return [(text, text in told) for text in KNOWN.values()]


def stops(path, socket):
    """Each text that gdb has to print of the program while it runs, in this order, and whether it does."""
    words = ["-M", "mcf5208evb", "-cpu", "m68020", "-display", "none", "-serial", "none", "-monitor", "none", "-S"]
    machine = subprocess.Popen(["qemu-system-m68k", *words, "-kernel", path, "-gdb", f"unix:{socket},server=on,wait=off"])
    try:
        for _ in range(400):
            if socket.exists() or machine.poll() is not None:
                break
            time.sleep(0.05)
        told = asked(path, f"target remote {socket}", *(command for command, _ in STOPS))
    finally:
        machine.kill()
        machine.wait()
    for text in (text for _, text in STOPS if text):
        _, found, told = told.partition(text)
        yield text, found == text
