"""Builds for machines that `rattle` does not name: clang compiles the module of a crate, which ports/retarget.py has written
anew."""
import pathlib
import re
import tempfile
from dataclasses import dataclass

from module import CLANG, KIT, ROOT, run
from retarget import machine_of, retarget

AR = KIT / "toolchain/bin/llvm-ar"
# The functions of the C library that the program asks, which ports/system.c asks in its place.
ASKED = ["open", "close", "read", "write", "lseek", "isatty", "fsync", "statx", "__xpg_strerror_r", "__sysv_signal"]
ALLOCATES = ["malloc", "realloc", "free"]
LINKER = KIT / "toolchain/bin/ld.lld"
# The calls that load a file piece by piece; hunk_want is left out, which a loader can do without.
STREAM = ["hunk_table", "hunk_begin", "hunk_feed", "hunk_end"]
# What `rattle` has clang do on each machine.
SAME = ["--no-default-config", "-no-canonical-prefixes", "-fno-crash-diagnostics", "-Werror"]
SAME += ["-ffunction-sections", "-fdata-sections"]
for word in ("no-trap-after-noreturn", "trap-unreachable", "disable-machine-licm", "disable-postra-machine-licm"):
    SAME += ["-mllvm", f"-{word}"]
SAME += ["-mllvm", "-sink-common-insts=false"]


@dataclass(frozen=True)
class Machine:
    """What clang is told of a machine: LLVM's name of it, its processor, and what the code is to be best at; and what
    Debian's compiler with a C library for it is called by, where there is one."""
    triple: str
    flags: list
    system: str = ""


# The code for ARMv7 is Thumb-2: two thirds of the bytes, and a little less stack. Debian's C library for 32-bit Arm is for ARMv7.
LINUX = {
    "armv7": Machine("armv7-unknown-linux-gnueabihf", ["-mthumb", "-mfpu=vfpv3-d16", "-mfloat-abi=hard", "-O3", "-fPIC"],
                     "arm-linux-gnueabihf"),
    "armv6": Machine("armv6-unknown-linux-gnueabihf", ["-mcpu=arm1176jzf-s", "-mfloat-abi=hard", "-O3", "-fPIC"]),
    "riscv64": Machine("riscv64-unknown-linux-gnu", ["-march=rv64gc", "-mabi=lp64d", "-O3", "-fPIC"], "riscv64-linux-gnu"),
}
# The functions of a module do not say that they are to be small, and without that -Os is nearly -O2.
SMALL = ["-Os", "-mllvm", "-force-attribute=optsize"]
# On Arm the library is to ask for memcpy, memmove and memset by these names, as everywhere, so -meabi gnu.
BOARDS = {
    "cortex-m4": Machine("thumbv7em-none-eabi", ["-mcpu=cortex-m4", *SMALL, "-meabi", "gnu"]),
    "cortex-m0": Machine("thumbv6m-none-eabi", ["-mcpu=cortex-m0", *SMALL, "-meabi", "gnu"]),
    "riscv32": Machine("riscv32-unknown-elf", ["-march=rv32imac", "-mabi=ilp32", *SMALL]),
}


def compile_module(module, machine, made):
    """Compiles the text of a module for a machine into the object file `made`."""
    with tempfile.TemporaryDirectory() as name:
        text = pathlib.Path(name) / "module.ll"
        text.write_text(retarget(module, *machine_of(CLANG, machine.triple, machine.flags)), encoding="utf-8")
        run([CLANG, f"--target={machine.triple}", *machine.flags, *SAME, "-c", text, "-o", made], name)


def module_of_c(source, *words):
    """The module of a C file without headers, for x86-64 Linux, as text: without what it says to the optimizer alone."""
    words = ["--target=x86_64-unknown-linux-gnu", "--no-default-config", "-std=c99", "-O1", "-fno-builtin", *words]
    words += ["-fno-asynchronous-unwind-tables", "-fomit-frame-pointer", "-Wall", "-Wextra", "-Werror"]
    with tempfile.TemporaryDirectory() as name:
        made = pathlib.Path(name) / "module.ll"
        run([CLANG, *words, "-S", "-emit-llvm", source, "-o", made], name)
        text = made.read_text(encoding="utf-8")
    text = re.sub(r"(?m)^!.*\n", "", text).replace(" local_unnamed_addr", "")
    return re.sub(r"(?m)^(attributes #[0-9]+ = \{).*\}$", r"\1 nounwind }", text)


def build_program(module, machine, to):
    """hunkinfo, of hunkinfo's module, linked statically with the C library of the machine's system."""
    compiler = f"{machine.system}-gcc"
    c = ["-std=gnu11", "-O2", "-Wall", "-Wextra", "-Werror", *(ROOT / "ports" / name for name in ("os.c", "system.c"))]
    with tempfile.TemporaryDirectory() as name:
        folder = pathlib.Path(name)
        compile_module(module, machine, folder / "hunkinfo.o")
        run([f"{machine.system}-objcopy", *(f"--redefine-sym={name}=system_{name}" for name in ASKED), "hunkinfo.o"], folder)
        heap = module_of_c(ROOT / "ports/heap.c", *(f"-D{name}=system_{name}" for name in ALLOCATES))
        compile_module(heap, machine, folder / "heap.o")
        run([compiler, "-static", "-s", "-Wl,--gc-sections", "hunkinfo.o", "heap.o", *c, "-o", to / "hunkinfo"], folder)


def archive(made, member):
    """An archive of one object file, as on each run."""
    made.unlink(missing_ok=True)
    run([AR, "rcsD", made, member.name], member.parent)


def build_library(module, machine, to):
    """libhunk.a, of hunk_c's module. On a board also libhunk-stream.a, of what STREAM's calls need alone, for a linker that
    drops no sections."""
    with tempfile.TemporaryDirectory() as name:
        whole, stream = pathlib.Path(name) / "hunk.o", pathlib.Path(name) / "hunk-stream.o"
        compile_module(module, machine, whole)
        archive(to / "libhunk.a", whole)
        if machine in BOARDS.values():
            needed = [word for call in STREAM for word in ("-u", call)]
            run([LINKER, "-r", "--gc-sections", *needed, whole, "-o", stream], name)
            archive(to / "libhunk-stream.a", stream)
