#!/usr/bin/env python3
"""Compiles for WebAssembly with a 64-bit memory what `rattle build` compiles for Linux on x86-64. It is called in place of clang:

    web/retarget.py KIT FOLDER      makes FOLDER, for `rattle build --toolchain FOLDER`, whose clang is this script

Rattle's LLVM backend lowers the proved program to one LLVM module, and calls clang with it. For wasm64 it refuses code that calls C
functions, as the allocator is. So it is called for x86-64, and this script

- reads the module, and refuses what it doesn't know: each word outside of names and strings is in WORDS, each intrinsic in INTRINSICS,
  each attribute with a value in DROPPED. So there is no assembly, no intrinsic of a processor, no other address space, no thread-local
  variable, no calling convention but those of LLVM itself, and no type that the two targets lay out otherwise;
- replaces the two lines of the target, drops the attributes of DROPPED, and compiles the module with the kit's clang.

The two data layouts agree in the byte order, in pointers of 64 bits, and in the sizes and alignments of the types that are left:
integers, floats, doubles, vectors, arrays and structs of these. docs/WEB.md has the comparison. FOLDER/module.ll is the module as compiled."""

import pathlib
import re
import shlex
import subprocess
import sys

from linking import TRIPLE

X86_LAYOUT = "e-m:e-p270:32:32-p271:32:32-p272:64:64-i64:64-i128:128-f80:128-n8:16:32:64-S128"
LAYOUT = "e-m:e-p:64:64-p10:8:8-p20:8:8-i64:64-i128:128-n32:64-S128-ni:1:10:20"
"""The layouts of LLVM 22 for the two targets: without these very words the comparison doesn't hold."""

FLAGS = ("-O3", "-mcpu=lime1", "-ffunction-sections", "-fdata-sections", "-Werror", "--no-default-config", "-fno-crash-diagnostics",
         "-mllvm", "-trap-unreachable", "-mllvm", "-expand-div-rem-bits=64", "-mllvm", "-expand-fp-convert-bits=64")
"""As Rattle's backend has them for wasm64. The last two keep LLVM from calls of functions that mem.c doesn't have."""

WORDS = frozenset("""
add sub mul udiv sdiv urem srem shl lshr ashr and or xor fadd fsub fmul fdiv frem fneg icmp fcmp select phi freeze
trunc zext sext fptrunc fpext fptoui fptosi uitofp sitofp ptrtoint ptrtoaddr inttoptr bitcast to
alloca load store getelementptr memcpy fence cmpxchg atomicrmw extractvalue insertvalue extractelement insertelement shufflevector
br switch ret unreachable call label tail notail
eq ne ugt uge ult ule sgt sge slt sle oeq ogt oge olt ole one ord ueq uno une true false
nuw nsw exact inbounds nusw disjoint nneg samesign volatile atomic monotonic acquire release acq_rel seq_cst unordered
void ptr float double x type opaque
define declare internal private external constant global unnamed_addr local_unnamed_addr dso_local align section comdat any
null zeroinitializer undef poison splat hidden
attributes nounwind noinline alwaysinline inlinehint optnone optsize minsize cold hot noreturn norecurse nofree nosync willreturn mustprogress
nobuiltin builtin nocallback nomerge memory none read write readwrite argmem inaccessiblemem errnomem target_mem speculatable
nocreateundeforpoison
allocsize allockind uwtable noundef nonnull noalias nocapture captures address provenance read_provenance address_is_null
readonly readnone writeonly returned signext zeroext sret byval immarg range dereferenceable dereferenceable_or_null dead_on_unwind writable
initializes nofpclass null_pointer_is_valid strictfp fastcc coldcc ccc inreg
source_filename target datalayout triple
""".split())
"""Those of the IR, without digits: instructions with their flags, types, linkage, attributes, and the lines of the module's head."""

INTRINSICS = re.compile(r"llvm\.(?:trap|assume|arithmetic\.fence|expect|lifetime|memcpy|memmove|memset|bswap|bitreverse|ctlz|cttz"
                        r"|ctpop|fshl|fshr|abs|[us](?:min|max)|[us](?:add|sub|mul)\.(?:with\.overflow|sat)|vector\.reduce\.(?:and|or|xor|add|[us](?:min|max))"
                        r"|fabs|copysign|floor|ceil|trunc|rint|nearbyint|sqrt)(?:\.\w*)*")

DROPPED = frozenset({"probe-stack", "stack-probe-size", "target-cpu", "target-features", "tune-cpu"})
"""Attributes of functions with a value: those about x86-64. No other is known."""

STRING = '"[^"]*"'
"""LLVM writes a quote in a string as \\22."""

NAME = rf"(?:[-$._A-Za-z]*|{STRING})"
TOKEN = re.compile(rf";[^\n]*|c{STRING}|(?P<attribute>{STRING})(?==)|[@%$!]{NAME}|{STRING}|^{NAME}:|(?P<word>[A-Za-z_][\w.]*)", re.M)
"""In a skeleton: comments, strings, names and labels have no words."""

LEFT = re.compile(r"i|e|x[A-F]*")
"""What is left of the type of an integer, and of a float, without its digits."""


class Refused(Exception):
    """What the module has that isn't known."""


def skeleton(text):
    """The lines of a module without their digits, each once: few are left of millions."""
    return b"\n".join(set(text.encode().translate(None, b"0123456789").split(b"\n"))).decode()


def check(text):
    """Refuses a module with anything that isn't known to be the same for the two targets."""
    lines, unknown = skeleton(text), set()
    for token in TOKEN.finditer(lines):
        word, attribute = token["word"], token["attribute"]
        if word and word not in WORDS and not LEFT.fullmatch(word):
            unknown.add(word)
        if attribute and attribute.strip('"') not in DROPPED:
            unknown.add(attribute)
    unknown |= {name for name in re.findall(r"@(llvm\.[\w.]+)", lines) if not INTRINSICS.fullmatch(name)}
    if unknown:
        raise Refused("the module has words that aren't known, digits left out: " + " ".join(sorted(unknown)))


def replaced(text, line, by):
    """The text with the one line of the target replaced."""
    if text.count(line) != 1:
        raise Refused(f"the module doesn't have the line {line.strip()}")
    return text.replace(line, by)


def retargeted(text):
    check(text)
    text = replaced(text, f'\ntarget datalayout = "{X86_LAYOUT}"\n', f'\ntarget datalayout = "{LAYOUT}"\n')
    text = replaced(text, '\ntarget triple = "x86_64-unknown-linux-gnu"\n', f'\ntarget triple = "{TRIPLE}"\n')
    return re.sub(rf'"(?:{"|".join(DROPPED)})"={STRING} ?', "", text)


def compile_module(folder, clang, module, out):
    """Compiles a module, as text or bitcode, to an object."""
    given, made = folder / "given.ll", folder / "module.ll"
    subprocess.run([clang, "-x", "ir", module, "-S", "-emit-llvm", "-O0", "-Xclang", "-disable-llvm-passes", "-o", given], check=True)
    made.write_text(retargeted(given.read_text(encoding="utf-8")), encoding="utf-8")
    subprocess.run([clang, f"--target={TRIPLE}", *FLAGS, "-c", "-x", "ir", made, "-o", out], check=True)


def make_toolchain(kit, folder):
    """A folder like the kit's toolchain, whose clang is this script."""
    tools, bin_ = pathlib.Path(kit).resolve() / "toolchain", folder / "bin"
    bin_.mkdir(parents=True, exist_ok=True)
    for name in ("lib", "bin/ld.lld", "bin/llvm-ar", "bin/rattle-x64"):
        link = folder / name
        link.unlink(missing_ok=True)
        link.symlink_to(tools / name)
    wrapper = bin_ / "clang"
    words = (sys.executable, pathlib.Path(__file__).resolve(), "--clang", folder.resolve(), tools / "bin/clang")
    wrapper.write_text(f'#!/bin/sh\nexec {shlex.join(map(str, words))} "$@"\n', encoding="utf-8")
    wrapper.chmod(0o755)


def main():
    if sys.argv[1] != "--clang":
        make_toolchain(sys.argv[1], pathlib.Path(sys.argv[2]))
        return
    folder, clang, words = pathlib.Path(sys.argv[2]), sys.argv[3], sys.argv[4:]
    if "ir" not in words:
        sys.exit(subprocess.run([clang, *words], check=False).returncode)
    try:
        compile_module(folder, clang, words[words.index("ir") + 1], words[words.index("-o") + 1])
    except Refused as refusal:
        sys.exit(f"retarget: {refusal}")


if __name__ == "__main__":
    main()
