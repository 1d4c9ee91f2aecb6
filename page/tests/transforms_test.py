#!/usr/bin/env python3
"""Tests widen.py and narrow.py: what they have to refuse, rule by rule, and that a narrowed module computes what it did.
And heap.c, on a machine.

    transforms_test.py

The last parts need a C compiler; the toolchain's clang, which compiles tests/touch.c for WebAssembly; and Node.
"""

import os
import pathlib
import shutil
import subprocess
import sys
import tempfile

HERE = pathlib.Path(__file__).resolve().parent
sys.path.insert(0, str(HERE.parent))
sys.dont_write_bytecode = True

import narrow  # noqa: E402
import widen  # noqa: E402

passed, failed, skipped = 0, 0, 0


def expect(name, holds, more=""):
    global passed, failed
    if holds:
        passed += 1
    else:
        failed += 1
        print(f"FAILED {name} {more}")


def refuses(kind, name, make, cause):
    """That this is refused, and for this cause."""
    try:
        make()
    except kind as refused:
        expect(name, cause in str(refused), f"is refused because of: {refused}")
    else:
        expect(name, False, "is not refused")


# ---- widen.py

GOOD = f"""; ModuleID = 'module.bc'
source_filename = "module"
target datalayout = "{widen.LAYOUT}"
target triple = "x86_64-unknown-linux-gnu"

@words = private constant [4 x i8] c"asm\\00"

declare {{ i64, ptr }} @rattle_alloc(i64, i64)
declare void @llvm.memcpy.p0.p0.i64(ptr, ptr, i64, i1)
declare double @llvm.arithmetic.fence.f64(double)

define i8 @"run"(ptr %text) #0 {{
  fence seq_cst
  ret i8 0
}}

define i8 @page(ptr %text) #0 {{
  ret i8 0
}}

attributes #0 = {{ nounwind "probe-stack"="inline-asm" "target-cpu"="x86-64" }}
"""


def widen_rules():
    made = widen.widen(GOOD, "page")
    lines = [(old, new) for old, new in zip(GOOD.splitlines(), made.splitlines()) if old != new]
    expect("widen changes four lines of the sample", len(lines) == 4 and len(made.splitlines()) == len(GOOD.splitlines()), lines)
    expect("widen marks the export", 'define i8 @page(ptr %text) "wasm-export-name"="page" #0' in made)
    expect("widen drops what is said of the processor", "x86" not in made.split("@words")[1])
    breaks = {
        "another data layout": (widen.LAYOUT, "e-m:e-p:32:32", "the data layout"),
        "no triple": ('target triple = "x86_64-unknown-linux-gnu"\n', "", "triple is said 0 times"),
        "two triples": ("\n@words", '\ntarget triple = "a"\ntarget triple = "b"\n@words', "triple is said 3 times"),
        "no export": ("@page(", "@other(", "page is defined 0 times"),
        "an export that is internal": ("define i8 @page", "define internal i8 @page", "page is defined 0 times"),
        "a function of C": ("@rattle_alloc", "@malloc", "malloc is not defined"),
        "a function of C in quotes": ("@rattle_alloc", '@"write"', "write is not defined"),
        "an intrinsic of x86": ("@llvm.memcpy.p0.p0.i64", "@llvm.x86.sse2.pause", "llvm.x86.sse2.pause is not defined"),
        "an intrinsic that is not listed": ("@llvm.memcpy.p0.p0.i64", "@llvm.frameaddress.p0", "llvm.frameaddress.p0 is not defined"),
        "a name that only begins like one": ("@llvm.memcpy.p0.p0.i64", "@llvm.memcpyx", "llvm.memcpyx is not defined"),
        "assembly": ("  fence seq_cst", '  call void asm sideeffect "nop", ""()', "assembly"),
        "assembly of the module": ("\n@words", '\nmodule asm "nop"\n@words', "assembly"),
        "an address space": ("(ptr %text) #0 {\n  fence", "(ptr addrspace(1) %text) #0 {\n  fence", "an address space"),
        "a float of 80 bits": ("  fence seq_cst", "  %x = fadd x86_fp80 %a, %b", "a type of x86"),
        "a calling convention of x86": ('define i8 @"run"', 'define x86_stdcallcc i8 @"run"', "a calling convention"),
        "a numbered calling convention": ('define i8 @"run"', 'define cc 10 i8 @"run"', "a calling convention"),
        "a type of a target": ("  fence seq_cst", '  %x = alloca target("aarch64.svcount")', "a type of a target"),
        "a variable of a thread": ("@words = private constant", "@words = private thread_local constant", "a variable of a thread"),
        "a variable from outside": ('@words = private constant [4 x i8] c"asm\\00"', "@words = external constant [4 x i8]", "a variable from outside"),
        "a function chosen at start": ("\n@words", "\n@choose = ifunc i8 (ptr), ptr @page\n@words", "a function chosen at start"),
        "any number of arguments": ("@rattle_alloc(i64, i64)", "@rattle_alloc(i64, ...)", "any number of arguments"),
    }
    for name, (old, new, cause) in breaks.items():
        assert GOOD.count(old) == 1, f"{name}: {old!r} is there {GOOD.count(old)} times"
        refuses(widen.Refused, f"widen: {name}", lambda: widen.widen(GOOD.replace(old, new), "page"), cause)
    expect("widen takes what only names and texts say", "assembly" not in made and 'c"asm\\00"' in made)


# ---- narrow.py


def section(kind, *parts):
    body = b"".join(parts)
    return bytes([kind]) + narrow.leb(len(body)) + body


def module(code=b"\x0b", types=b"\x01\x60\x00\x00", memory=b"\x01\x04\x01", functions=b"\x01\x00", before=b"", data=b"", after=b"", locals_=b"\x00"):
    body = locals_ + code
    parts = [section(1, types), before, section(3, functions)]
    if memory:
        parts.append(section(5, memory))
    parts += [after, section(10, b"\x01", narrow.leb(len(body)), body), data]
    return b"\0asm\1\0\0\0" + b"".join(parts)


def narrow_rules():
    made = narrow.narrow(module(section(0, b"\x04name")[:0] + b"\x0b"))
    expect("narrow takes a plain module", section(5, b"\x01\x00\x01") in made)
    expect("narrow drops what says that the memory has 64 bits", b"name" not in narrow.narrow(module(after=section(0, b"\x04name"))))
    i64 = lambda value: b"\x42" + narrow.sleb(value)
    load = lambda align, offset: i64(0) + b"\x28" + narrow.leb(align) + narrow.leb(offset) + b"\x1a\x0b"
    placed = lambda place: section(11, b"\x01\x00", place, b"\x0b\x01A")
    expect("narrow cuts an address", i64(0) + b"\xa7\x28\x02\x00\x1a\x0b" in narrow.narrow(module(load(2, 0))))
    expect("narrow writes a long offset anew", b"\x28\x02\x05" in narrow.narrow(module(i64(0) + b"\x28\x02\x85\x80\x80\x80\x80\x80\x00\x1a\x0b")))
    expect("narrow moves a segment", section(11, b"\x01\x00\x41\x10\x0b\x01A") in narrow.narrow(module(data=placed(i64(16)))))
    expect("narrow moves a segment past 2^31", section(11, b"\x01\x00\x41" + narrow.sleb(-(1 << 31)) + b"\x0b\x01A") in narrow.narrow(module(data=placed(i64(1 << 31)))))
    breaks = {
        "no module": (b"\0asm\2\0\0\0", "no module"),
        "an import": (module(before=section(2, b"\x01\x01a\x01b\x00\x00")), "an import"),
        "a memory of 32 bits": (module(memory=b"\x01\x00\x01"), "the memory has 32 bits already"),
        "two memories": (module(memory=b"\x02\x04\x01\x04\x01"), "a second memory"),
        "a shared memory": (module(memory=b"\x01\x07\x01\x02"), "the flags 7"),
        "a memory of more than 4 GiB": (module(memory=b"\x01\x04\x81\x80\x04"), "more than 4 GiB"),
        "an offset of 2^32": (module(load(2, 1 << 32)), "an offset"),
        "a load from a second memory": (module(i64(0) + b"\x28\x42\x01\x00\x1a\x0b"), "a second memory"),
        "the size of a second memory": (module(b"\x3f\x01\x1a\x0b"), "a second memory"),
        "a second memory that grows": (module(i64(1) + b"\x40\x01\x1a\x0b"), "a second memory"),
        "a copy to a second memory": (module(i64(0) * 3 + b"\xfc\x0a\x01\x00\x0b"), "a second memory"),
        "a fill of a second memory": (module(i64(0) + b"\x41\x00" + i64(0) + b"\xfc\x0b\x01\x0b"), "a second memory"),
        "an atomic instruction": (module(b"\xfe\x03\x00\x0b"), "the instruction 0xfe"),
        "a vector instruction": (module(b"\xfd\x0c" + bytes(16) + b"\x1a\x0b"), "the instruction 0xfd"),
        "a tail call": (module(b"\x12\x00\x0b"), "the instruction 0x12"),
        "a passive segment": (module(data=section(11, b"\x01\x01\x01A")), "a segment that is not placed"),
        "an instruction for passive segments": (module(i64(0) + b"\x41\x00\x41\x00\xfc\x08\x00\x00\x0b"), "the instruction 0xfc 8"),
        "a segment at a global": (module(data=placed(b"\x23\x00")), "no constant"),
        "a segment at a sum": (module(data=placed(i64(1) + i64(1) + b"\x7c")), "no constant"),
        "a segment at 2^32": (module(data=placed(i64(1 << 32))), "no constant below 2^32"),
        "a segment below 0": (module(data=placed(i64(-1))), "no constant below 2^32"),
        "a table of references": (module(before=section(4, b"\x01\x6f\x00\x01")), "one of no functions"),
        "a function that starts": (module(after=section(8, b"\x00")), "a section of kind 8"),
        "exceptions": (module(after=section(13, b"\x01\x00\x00")), "a section of kind 13"),
        "a type of arrays": (module(types=b"\x01\x5e\x7f\x00"), "a type that is no function"),
        "elements that are not placed": (module(before=section(4, b"\x01\x70\x04\x01"), after=section(9, b"\x01\x01\x00\x01\x00")), "elements that are not placed"),
        "fewer bodies than functions": (module(functions=b"\x02\x00\x00"), "as many bodies as functions"),
    }
    for name, (bad, cause) in breaks.items():
        refuses(narrow.Refused, f"narrow: {name}", lambda: narrow.narrow(bad), cause)


# ---- a narrowed module computes what it did


def computes_the_same():
    global skipped
    rt, node, cc = (shutil.which(it) for it in ("rt", "node", "cc"))
    if not (rt and node and cc):
        skipped += 1
        print("transforms: rt, node or cc is missing, so no narrowed module is run")
        return
    kit = pathlib.Path(os.path.realpath(rt)).parent.parent
    with tempfile.TemporaryDirectory() as work:
        work = pathlib.Path(work)
        clang = [kit / "toolchain/bin/clang", "-O2", "-ffreestanding", "-Werror"]
        wasm = [*clang, "--target=wasm64-unknown-unknown", "-mcpu=lime1", "-c", HERE / "touch.c", "-o", work / "touch.o"]
        native = [*clang, "--target=x86_64-unknown-linux-gnu", "-fPIC", "-c", HERE / "touch.c", "-o", work / "native.o"]
        link = [kit / "bin/rattle-link", "--target", "wasm64-unknown-unknown", "--toolchain", kit / "toolchain", "--stack", "65536", "-o", work / "wide.wasm", work / "touch.o"]
        for words in (wasm, native, link, ["cc", "-shared", "-o", work / "native.so", work / "native.o"]):
            subprocess.run([str(it) for it in words], check=True)
        (work / "narrow.wasm").write_bytes(narrow.narrow((work / "wide.wasm").read_bytes()))
        import ctypes

        library = ctypes.CDLL(str(work / "native.so"))
        library.touch.restype = library.touch.argtypes = None
        library.touch.restype, library.touch.argtypes = ctypes.c_uint64, [ctypes.c_uint64]
        seeds = [0, 1, 7, 255, 65537, (1 << 32) - 1, 1 << 63, 0x0123456789ABCDEF]
        wanted = [library.touch(seed) for seed in seeds]
        script = (
            "const m = new WebAssembly.Module(require('fs').readFileSync(process.argv[1]));"
            "const { touch, grown } = new WebAssembly.Instance(m).exports;"
            f"console.log([{', '.join(f'{seed}n' for seed in seeds)}].map(s => BigInt.asUintN(64, touch(BigInt.asIntN(64, s)))).join(' ')); console.log(grown(3n), grown(1n << 20n), grown((1n << 32n) + 1n));"
        )
        done = subprocess.run([node, "-e", script, str(work / "narrow.wasm")], capture_output=True, text=True)
        said = done.stdout.splitlines() or [done.stderr, ""]
        expect("a narrowed module computes what it did", said[0] == " ".join(map(str, wanted)), f"{said[0]} for {wanted}")
        expect("a narrowed memory grows by what is asked, or not at all", said[1] == "3n -1n -1n", said[1])


def heap_serves():
    global skipped
    if not shutil.which("cc"):
        skipped += 1
        print("transforms: there is no cc, so the heap is not tried")
        return
    with tempfile.TemporaryDirectory() as work:
        tried = f"{work}/heap_test"
        subprocess.run(["cc", "-O1", "-w", "-o", tried, HERE / "heap_test.c"], check=True)
        done = subprocess.run([tried], capture_output=True, text=True)
        expect("the heap keeps what it is given, and says when there is no more", done.returncode == 0, done.stdout)


def main():
    widen_rules()
    narrow_rules()
    computes_the_same()
    heap_serves()
    print(f"transforms: {passed} passed, {failed} failed, {skipped} skipped")
    return bool(failed)


if __name__ == "__main__":
    sys.exit(main())
