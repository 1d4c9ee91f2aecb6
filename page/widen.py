#!/usr/bin/env python3
"""Turns the program's LLVM module, as made for x86-64, into one for wasm64: the same functions for another target.

    widen.py MODULE.ll EXPORT > NEW.ll

Both targets have pointers of 64 bits and lay out numbers alike, so only the head changes, what attributes say of x86-64,
and that EXPORT is exported; no instruction does. Whatever else might mean something else on another target is refused.
"""

import re
import sys

LAYOUT = "e-m:e-p270:32:32-p271:32:32-p272:64:64-i64:64-i128:128-f80:128-n8:16:32:64-S128"
HEAD = {
    "datalayout": "e-m:e-p:64:64-p10:8:8-p20:8:8-i64:64-i128:128-n32:64-S128-ni:1:10:20",
    "triple": "wasm64-unknown-unknown",
}

# What the program may leave undefined: its memory, and what LLVM has on every target.
MEMORY = {"rattle_alloc", "rattle_realloc", "rattle_dealloc"}
EVERYWHERE = re.compile(
    r"llvm\.(?:memcpy|memmove|memset|ctlz|cttz|ctpop|bswap|bitreverse|fsh[lr]|abs|[su](?:min|max)|[su](?:add|sub)\.sat"
    r"|[su](?:add|sub|mul)\.with\.overflow|arithmetic\.fence|assume|expect|trap|lifetime\.(?:start|end)|experimental\.noalias\.scope\.decl)(?:\.|$)"
)

ATTRIBUTES = re.compile(r' "(?:probe-stack|stack-probe-size|target-cpu|target-features|tune-cpu|frame-pointer)"="[^"]*"')
DECLARED = re.compile(r'^declare [^@\n]*@(?:"([^"]*)"|([\w.$]+))', re.M)

# What has another meaning on another target, or none, wherever it stands outside names, texts and comments.
FOREIGN = {
    "assembly": r"\basm\b",
    "an address space": r"\baddrspace\(",
    "a type of x86": r"\b(?:x86_fp80|x86_mmx|x86_amx|fp128|ppc_fp128)\b",
    "a calling convention": r"\b(?:x86_\w+cc|win64cc|cc \d+)\b",
    "a type of a target": r"\btarget\(",
    "a variable of a thread": r"\bthread_local\b",
    "a variable from outside": r"= (?:external|extern_weak)\b",
    "a function chosen at start": r"\bifunc\b",
    "a function with any number of arguments": r"\.\.\.\)",
}


class Refused(Exception):
    pass


def widen(text, export):
    found = re.findall(r'^target datalayout = "(.*)"$', text, re.M)
    if found != [LAYOUT]:
        raise Refused(f"the data layout is not that of x86-64: {found}")
    for name, value in HEAD.items():
        text, count = re.subn(rf'^target {name} = ".*"$', f'target {name} = "{value}"', text, flags=re.M)
        if count != 1:
            raise Refused(f"{name} is said {count} times")
    text = ATTRIBUTES.sub("", text)
    definition = rf"^(define (?!internal|private)[^\n]*@{export}\([^\n]*\)) (#\d+ )?"
    text, count = re.subn(definition, rf'\1 "wasm-export-name"="{export}" \2', text, flags=re.M)
    if count != 1:
        raise Refused(f"{export} is defined {count} times")
    for name in (quoted or plain for quoted, plain in DECLARED.findall(text)):
        if name not in MEMORY and not EVERYWHERE.match(name):
            raise Refused(f"{name} is not defined")
    bare = re.sub(r'c?"[^"\n]*"|;[^\n]*', '""', text)
    bare = re.sub(r"^target triple[^\n]*|^source_filename[^\n]*", "", bare, flags=re.M)
    for what, pattern in FOREIGN.items():
        if re.search(pattern, bare, re.M):
            raise Refused(what)
    return text


def main():
    path, export = sys.argv[1:]
    with open(path, encoding="utf-8") as file:
        text = file.read()
    try:
        sys.stdout.write(widen(text, export))
    except Refused as cause:
        sys.exit(f"widen: {cause}")


if __name__ == "__main__":
    main()
