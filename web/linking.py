"""Compiles C for WebAssembly with a 64-bit memory, and links modules, with the clang and lld of the kit."""

import subprocess

TRIPLE = "wasm64-unknown-unknown"
STACK = 1 << 20
"""It is below all data, at address 0. So a stack that overflows ends the run with a trap, before other memory is written."""

C_FLAGS = (f"--target={TRIPLE}", "-mcpu=lime1", "-O2", "-std=c11", "-Wall", "-Wextra", "-Werror", "-ffreestanding", "-fno-builtin",
           "-nostdlib")
LINK = ("-flavor", "wasm", "-mwasm64", "--no-entry", "--stack-first", "-z", f"stack-size={STACK}", "--gc-sections", "--strip-all", "-O2",
        "--fatal-warnings")


def call(*words, **how):
    subprocess.run([str(word) for word in words], check=True, **how)


def compile_c(kit, source, made):
    call(kit / "toolchain/bin/clang", *C_FLAGS, "-c", source, "-o", made)


def link(kit, module, exports, objects):
    """Links a module. A function that is neither there nor an import of the host is an error."""
    call(kit / "toolchain/bin/ld.lld", *LINK, *(f"--export={name}" for name in exports), "-o", module, *objects)
