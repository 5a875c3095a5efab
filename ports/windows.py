"""Windows on x86-64. The library is built by the kit alone: libhunk.a, which MinGW links, hunk.lib, which MSVC's linker does, and
hunk.dll, which imports what copies bytes and grows the stack from ntdll.dll, which every program has loaded. The program needs
MinGW's C library, and os.c of the folder windows."""
import pathlib
import re
import shutil
import tempfile

from module import CLANG, ROOT, run
from retargeted import AR, Machine, build_library, compile_module, module_of_c

TARGET = "x86_64-pc-windows"
COMPILER = "x86_64-w64-mingw32-gcc"
FLAGS = ["-march=x86-64", "-O3"]
GNU = Machine("x86_64-w64-windows-gnu", FLAGS)
# No time stands in the object file.
MSVC = Machine("x86_64-pc-windows-msvc", [*FLAGS, "-mno-incremental-linker-compatible"])
# What the library asks for.
NTDLL = ["__chkstk", "memcpy", "memmove", "memset"]
# As much as a program has on Linux.
STACK = 8 << 20


def define(to, library, names):
    """Writes what a linker reads of a DLL: its name, and those of its functions."""
    to.write_text("\n".join([f"LIBRARY {library}", "EXPORTS", *names, ""]), encoding="utf-8")


def tool(name, folder):
    """The kit's clang is LLVM's other tools, too, where it is called by their names."""
    link = folder / name
    link.symlink_to(CLANG)
    return link


def build_dll(code, to, folder):
    """hunk.dll, and what links against it, of this object file. Its functions are those of hunk.h."""
    header = (ROOT / "bindings/c/hunk.h").read_text(encoding="utf-8")
    define(folder / "hunk.def", "hunk.dll", sorted(set(re.findall(r"\b(hunk_\w+)\(", header))))
    define(folder / "ntdll.def", "ntdll.dll", NTDLL)
    run([tool("llvm-dlltool", folder), "-m", "i386:x86-64", "-d", "ntdll.def", "-l", "ntdll.lib"], folder)
    words = ["/dll", "/noentry", "/machine:x64", "/nodefaultlib", "/Brepro", "/def:hunk.def", f"/implib:{to / 'libhunk.dll.a'}"]
    run([tool("lld-link", folder), *words, f"/out:{to / 'hunk.dll'}", code, "ntdll.lib"], folder)


def build_libraries(module, to):
    """libhunk.a, hunk.lib, hunk.dll and libhunk.dll.a, of hunk_c's module."""
    build_library(module, GNU, to)
    with tempfile.TemporaryDirectory() as name:
        folder = pathlib.Path(name)
        compile_module(module, MSVC, folder / "hunk.obj")
        (to / "hunk.lib").unlink(missing_ok=True)
        run([AR, "--format=coff", "rcsD", to / "hunk.lib", "hunk.obj"], folder)
        build_dll(folder / "hunk.obj", to, folder)


def build_program(module, to):
    """hunkinfo.exe, of hunkinfo's module."""
    with tempfile.TemporaryDirectory() as name:
        folder = pathlib.Path(name)
        compile_module(module, GNU, folder / "hunkinfo.o")
        compile_module(module_of_c(ROOT / "ports/heap.c"), GNU, folder / "heap.o")
        c = ["-std=c99", "-O2", "-Wall", "-Wextra", "-Werror", ROOT / "ports/windows/os.c"]
        link = ["-static", "-s", f"-Wl,--stack,{STACK},--no-insert-timestamp,--gc-sections", "hunkinfo.o", "heap.o", "-lshell32"]
        run([COMPILER, *c, *link, "-o", to / "hunkinfo.exe"], folder)


def build(module, to, with_program):
    """All of that, where `module` gives the module of a crate."""
    build_libraries(module("hunk_c"), to)
    if not with_program:
        return
    if shutil.which(COMPILER):
        build_program(module("hunkinfo"), to)
    else:
        (to / "hunkinfo.exe").unlink(missing_ok=True)
        print(f"ports/build: hunkinfo.exe was not built, as there is no {COMPILER} (Debian's gcc-mingw-w64-x86-64)")
