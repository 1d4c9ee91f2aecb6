#!/usr/bin/env python3
"""Builds the program as a WebAssembly module.

    module.py ROOT MODULE [KEPT]

ROOT is the top of the repository, where `rt ci` has proved and built every library below crn_page. MODULE gets the module,
with a 32-bit memory. KEPT, a folder, gets what comes before it: the two LLVM modules and the module with a 64-bit memory.

The toolchain builds no module for wasm64 that takes memory from its `Global`, so the way is another one:

1. `rattle build` proves crn_page, makes an LLVM module of it and of all that it calls, and has clang compile that for x86-64.
   It is given a folder in which clang is a script, which keeps the LLVM module and then calls the toolchain's clang, with
   `-O0`, as nobody runs that program.
2. widen.py turns that module into one for wasm64, and the toolchain's clang compiles it, and heap.c with it.
3. `rattle-link` links the two into a module, with its own functions for numbers of 128 bits. It imports nothing.
4. narrow.py cuts the addresses of that module to 32 bits, since not every browser runs it as it is.
"""

import os
import pathlib
import shutil
import stat
import subprocess
import sys
import tempfile

CRATE, EXPORT = "crn_page", "crn_page_run"
PARTS = ["src", "specs", "proofs"]
HERE = pathlib.Path(__file__).resolve().parent
STACK = 8 << 20
KEEPER = """#!/bin/sh
for word; do
    case $word in
        *.bc) cp -- "$word" {kept} ;;
    esac
done
exec {clang} "$@" -O0
"""


def crates(root):
    """The crates that each crate of crates.txt names."""
    named = {}
    for line in (root / "crates.txt").read_text().splitlines():
        line = line.split("#")[0]
        if ":" in line:
            head, _, names = line.partition(":")
            named[head.split()[0]] = names.split()
    return named


def below(named, crate, found):
    """The crates of the repository that a crate depends on, each after those that it depends on itself."""
    for name in named[crate]:
        if name in named and name not in found:
            below(named, name, found)
            found.append(name)
    return found


def library(root, name):
    return root / "crates" / name / "out/rlib" / f"{name}.rlib"


def is_built(root, name):
    """Whether a library came here after the last change of its sources, be it built or handed on from an earlier run of rt ci.
    Its folder says when: its files may be those of that run, and older."""
    made, folder = library(root, name), root / "crates" / name
    changed = [it.stat().st_mtime for part in PARTS for it in (folder / part).rglob("*") if it.is_file()]
    return made.is_dir() and max(changed, default=0) <= made.stat().st_ctime


def missing(root):
    """The libraries below crn_page that are not built of these sources."""
    return [name for name in below(crates(root), CRATE, []) if not is_built(root, name)]


def call(*words, **how):
    done = subprocess.run([str(it) for it in words], **how)
    if done.returncode:
        sys.exit(f"{words[0]} ended with {done.returncode}")


def keeper(kit, folder, kept):
    """A toolchain whose clang keeps the LLVM module that it is given."""
    real = kit / "toolchain"
    (folder / "bin").mkdir(parents=True)
    (folder / "lib").symlink_to(real / "lib")
    for file in (real / "bin").iterdir():
        if file.name != "clang":
            (folder / "bin" / file.name).symlink_to(file)
    script = folder / "bin/clang"
    script.write_text(KEEPER.format(kept=kept, clang=real / "bin/clang"))
    script.chmod(script.stat().st_mode | stat.S_IXUSR)
    return folder


def prove_and_keep(root, kit, work):
    """Proves crn_page, and gives the LLVM module of it and of all that it calls."""
    named = crates(root)
    words = ["--crate-name", CRATE, "src/lib.rt", "--extern", f"std={kit}/rlibs/std.rlib", "-L", f"dependency={kit}/rlibs"]
    for name in named[CRATE]:
        words += ["--extern", f"{name}={library(root, name) if name in named else kit / 'rlibs' / (name + '.rlib')}"]
    for name in below(named, CRATE, []):
        words += ["-L", f"dependency={library(root, name).parent}"]
    words += ["--antt-project", kit / "rattle/logic/antt-project.json", "--logic-built", kit / "logic_built"]
    words += ["--links", f"{CRATE}=", "--crate-type", "staticlib", "--cpu", "x86-64", "--backend", "llvm"]
    kept = work / "module.bc"
    words += ["--toolchain", keeper(kit, work / "toolchain", kept), "-o", work / f"lib{CRATE}.a"]
    with tempfile.TemporaryFile("w+") as said:
        done = subprocess.run([str(it) for it in (kit / "bin/rattle", "build", *words)], cwd=root / "crates" / CRATE, stdout=said, stderr=said)
        said.seek(0)
        if done.returncode:
            sys.exit(f"{CRATE} was not proved:\n{said.read()}")
    return kept


def compile_wide(kit, native, work):
    """The module with a 64-bit memory, of the LLVM module for x86-64."""
    tools = kit / "toolchain/bin"
    wasm = [tools / "clang", "--target=wasm64-unknown-unknown", "-mcpu=lime1", "-ffreestanding", "-Werror"]
    # What rattle itself passes where it compiles for wasm64, as 128-bit divisions have no function to call.
    divisions = ["-mllvm", "-expand-div-rem-bits=64"]
    as_text = ["-S", "-emit-llvm", "-Xclang", "-disable-llvm-passes"]
    call(tools / "clang", "--target=x86_64-unknown-linux-gnu", "-x", "ir", native, *as_text, "-o", work / "native.ll")
    with open(work / "wide.ll", "w", encoding="utf-8") as made:
        call(sys.executable, "-B", HERE / "widen.py", work / "native.ll", EXPORT, stdout=made)
    call(*wasm, *divisions, "-O3", "-x", "ir", "-c", work / "wide.ll", "-o", work / "program.o")
    call(*wasm, "-O2", "-Wall", "-c", HERE / "heap.c", "-o", work / "heap.o")
    call(tools / "llvm-ar", "--format=gnu", "rcs", work / "page.a", work / "program.o", work / "heap.o")
    link = ["--target", "wasm64-unknown-unknown", "--toolchain", kit / "toolchain", "--stack", STACK]
    call(kit / "bin/rattle-link", *link, "-o", work / "wide.wasm", work / "page.a")
    return work / "wide.wasm"


def main():
    root, module = (pathlib.Path(it).resolve() for it in sys.argv[1:3])
    if missing(root):
        sys.exit(f"these libraries are not built of these sources, as rt ci does in a clone without out/: {' '.join(missing(root))}")
    kit = pathlib.Path(os.path.realpath(shutil.which("rt"))).parent.parent
    with tempfile.TemporaryDirectory() as work:
        work = pathlib.Path(work)
        wide = compile_wide(kit, prove_and_keep(root, kit, work), work)
        module.parent.mkdir(parents=True, exist_ok=True)
        call(sys.executable, "-B", HERE / "narrow.py", wide, module)
        if len(sys.argv) > 3:
            kept = pathlib.Path(sys.argv[3])
            kept.mkdir(parents=True, exist_ok=True)
            for name in ("native.ll", "wide.ll", "wide.wasm"):
                shutil.copy(work / name, kept)


if __name__ == "__main__":
    main()
