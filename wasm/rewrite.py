# SPDX-License-Identifier: MIT
"""The LLVM module that the kit lowers proved code to for x86-64 Linux, as one for WebAssembly.

Only what has to be is changed: the target, what is said of its processor and its stack, the one instruction of SSSE3, and which
functions are exported. Whatever isn't known here stops it: then nothing is built.
"""
import re

WAS_LAYOUT = "e-m:e-p270:32:32-p271:32:32-p272:64:64-i64:64-i128:128-f80:128-n8:16:32:64-S128"
WAS_TRIPLE = "x86_64-unknown-linux-gnu"
# That of wasm64 in LLVM 22. Pointers, integers and their alignments are the same in both.
LAYOUT = "e-m:e-p:64:64-p10:8:8-p20:8:8-i64:64-i128:128-n32:64-S128-ni:1:10:20"
TRIPLE = "wasm64-unknown-unknown"
# What the module may declare: the heap, and what LLVM has on every target.
DECLARED = {"rattle_alloc", "rattle_realloc", "rattle_dealloc", "llvm.trap", "llvm.arithmetic.fence.f64"}
DECLARED_FORMS = re.compile(r"llvm\.((cttz|ctlz|ctpop)\.i\d+|mem(set|move|cpy)\.p0(\.p0)?\.i64)")
# What is said of functions for x86-64 alone, each with the only value that is known.
DROPPED = {"probe-stack": re.compile("inline-asm"), "stack-probe-size": re.compile(r"\d+"), "target-cpu": re.compile(r"x86-64(-v2)?")}
SHUFFLE = "llvm.x86.ssse3.pshuf.b.128"
TABLE = "bytes_at_places"
# What no line may have outside of a quoted string.
FOREIGN = re.compile(r"llvm\.x86\.|\basm\b|\baddrspace\(|\bx86_fp80\b|\bblockaddress\b|\bthread_local\b|\bifunc\b|\bcallbr\b|\binvoke\b")
DEFINED = re.compile(r'define (internal |)[^@"]*@([\w.$]+|"[^"]*")\(')


class Unknown(Exception):
    """Something in the module that isn't known here."""


def _shuffle():
    """What the instruction does: of sixteen bytes those at the low four bits of sixteen places, and 0 where a place is negative."""
    lines = [
        f"define internal <16 x i8> @{TABLE}(<16 x i8> %bytes, <16 x i8> %places) {{",
        "  %low = and <16 x i8> %places, splat (i8 15)",
    ]
    last = "poison"
    for lane in range(16):
        lines += [
            f"  %place{lane} = extractelement <16 x i8> %low, i64 {lane}",
            f"  %byte{lane} = extractelement <16 x i8> %bytes, i8 %place{lane}",
            f"  %taken{lane} = insertelement <16 x i8> {last}, i8 %byte{lane}, i64 {lane}",
        ]
        last = f"%taken{lane}"
    lines += [
        "  %negative = icmp slt <16 x i8> %places, zeroinitializer",
        f"  %result = select <16 x i1> %negative, <16 x i8> zeroinitializer, <16 x i8> {last}",
        "  ret <16 x i8> %result",
        "}",
    ]
    return lines


def _target(line):
    for name, was, now in (("datalayout", WAS_LAYOUT, LAYOUT), ("triple", WAS_TRIPLE, TRIPLE)):
        if line == f'target {name} = "{was}"':
            return f'target {name} = "{now}"'
    raise Unknown(line)


def _attributes(line):
    """What is said of functions, without that of the processor and of its stack."""

    def kept(found):
        if found[1] not in DROPPED or not DROPPED[found[1]].fullmatch(found[2]):
            raise Unknown(line)
        return ""

    return re.sub(r' "([^"]+)"="([^"]*)"', kept, line)


def _declares(line):
    name = re.search(r"@([\w.]+)\(", line)
    if not name or not (name[1] in DECLARED or DECLARED_FORMS.fullmatch(name[1])):
        raise Unknown(line)
    return line


def _defines(line, exports, found):
    said = DEFINED.match(line)
    if not said:
        raise Unknown(line)
    if said[1] or said[2] not in exports:
        return line
    found.add(said[2])
    exported, count = re.subn(r" (#\d+) \{$", rf' \1 "wasm-export-name"="{said[2]}" {{', line)
    if count != 1:
        raise Unknown(line)
    return exported


def rewritten(text, exports):
    """The module for WebAssembly, of which these functions are exported."""
    lines, found, shuffles = [], set(), False
    for line in text.split("\n"):
        if f"@{SHUFFLE}(" in line:
            shuffles = True
            if line.startswith("declare"):
                continue
            line = line.replace(f"@{SHUFFLE}(", f"@{TABLE}(")
        if line.startswith("target "):
            line = _target(line)
        elif line.startswith("attributes "):
            line = _attributes(line)
        elif line.startswith("declare "):
            line = _declares(line)
        elif line.startswith("define "):
            line = _defines(line, exports, found)
        elif line.startswith("module asm"):
            raise Unknown(line)
        if FOREIGN.search(re.sub(r'"[^"]*"', '""', line.split(";")[0] if line.startswith(";") else line)):
            raise Unknown(line)
        lines.append(line)
    if found != set(exports):
        raise Unknown(f"no function {sorted(set(exports) - found)}")
    return "\n".join(lines + (_shuffle() if shuffles else [])) + "\n"
