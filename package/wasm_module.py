"""The program for WebAssembly: from its bitcode, which was made for x86-64, to a module."""

import re
import subprocess
from pathlib import Path

SYSTEM = Path(__file__).resolve().parent.parent / "web/system.c"

# The most memory that the program may have, and its stack. The stack lies before all else in the
# memory, so the program ends where it is too deep.
MOST_MEMORY, STACK = 4 << 30, 1 << 20

FEATURES = ["bulk-memory", "simd128", "nontrapping-fptoint", "sign-ext"]
TARGET = ["--target=wasm64-unknown-unknown", *(f"-m{it}" for it in FEATURES)]
# A long log takes Node 20 a twentieth longer with -O3, and a third with -Os.
OPTIONS = ["-ffunction-sections", "-fdata-sections", "-O2"]
OF_SYSTEM = ["-std=c11", "-ffreestanding", "-fno-builtin", "-nostdlibinc", "-Wall", "-Wextra",
             "-Werror", "-Wno-unused-parameter"]
LINKED = ["-flavor", "wasm", "-mwasm64", "--no-entry", "--export=main", "--export=limit_memory",
          f"--max-memory={MOST_MEMORY}", "--stack-first", "-z", f"stack-size={STACK}",
          "--gc-sections", "--strip-all", "-O2"]

# The processor that the bitcode was made for, as it names it.
OF_PROCESSOR = re.compile(
    r'"(?:probe-stack|stack-probe-size|target-cpu|target-features|tune-cpu)"="[^"]*"')
# `pshufb` of x86, by the instruction of WebAssembly that does the same for indices below 16 and
# from 128 on; at the bits between, `pshufb` does not look.
LOOK_UP = "@llvm.x86.ssse3.pshuf.b.128"
LOOK_UP_HERE = """declare <16 x i8> @llvm.wasm.swizzle(<16 x i8>, <16 x i8>)

define internal <16 x i8> @looked_up(<16 x i8> %table, <16 x i8> %index) alwaysinline {
  %masked = and <16 x i8> %index, splat (i8 -113)
  %found = call <16 x i8> @llvm.wasm.swizzle(<16 x i8> %table, <16 x i8> %masked)
  ret <16 x i8> %found
}
"""
# The bits of many lanes as a number. Of more than 16, clang 22 makes another number: it shifts the
# constant 16 by what it has, in place of that by 16. So each 16 of them are made a number here, by
# an instruction of WebAssembly.
LANES = 16
BITS = re.compile(r"^  (%\S+) = bitcast <(32|64) x i1> (%\S+) to (i\d+|<\d+ x i\d+>)$", re.M)
MORE_BITS = re.compile(r"bitcast <(?:1[7-9]|[2-9]\d|\d{3,}) x i1>")
MASK = "@llvm.wasm.bitmask.v16i8"

# The numbers of two sections of a module.
TABLE, ELEMENTS = 4, 9


class Refused(Exception):
    """Why nothing is built, for standard error."""


def output(*words, **how):
    """What a command writes."""
    how = {"stdin": subprocess.DEVNULL, "capture_output": True, "text": True, **how}
    run = subprocess.run(words, errors="replace", **how)
    if run.returncode != 0:
        said = run.stderr.strip()[-2000:]
        raise Refused(f"{words[0]} ended with status {run.returncode}: {said}")
    return run.stdout


def for_webassembly(lines):
    """The program as text, for another processor."""
    for line in lines:
        if line.startswith("target "):
            continue
        if line.startswith("attributes"):
            line = OF_PROCESSOR.sub("", line)
        elif line.startswith("declare") and LOOK_UP in line:
            line = LOOK_UP_HERE
        yield line.replace(LOOK_UP, "@looked_up")


def bits_by_16(made, count, lanes, name):
    """The instructions that make the bits of 32 or 64 lanes a number."""
    so_far = None
    for first in range(0, count, LANES):
        part = f"%{name}.{first}"
        places = ", ".join(f"i32 {it}" for it in range(first, first + LANES))
        given = f"<{count} x i1> {lanes}, <{count} x i1> poison, <{LANES} x i32> <{places}>"
        yield f"  {part}.lanes = shufflevector {given}\n"
        yield f"  {part}.bytes = sext <{LANES} x i1> {part}.lanes to <{LANES} x i8>\n"
        yield f"  {part}.bits = call i32 {MASK}(<{LANES} x i8> {part}.bytes)\n"
        number = f"{part}.bits"
        if count == 64:
            number = f"{part}.wide"
            yield f"  {number} = zext i32 {part}.bits to i64\n"
        if so_far is None:
            so_far = number
            continue
        yield f"  {part}.high = shl i{count} {number}, {first}\n"
        both = made if first + LANES == count else f"{part}.both"
        yield f"  {both} = or i{count} {so_far}, {part}.high\n"
        so_far = both


def with_bits_by_16(lines):
    """The program as text, without what clang turns into another number."""
    is_declared = False
    for number, line in enumerate(lines):
        if found := BITS.match(line):
            made, count, lanes, kind = found.groups()
            name, is_number = f"bits.{number}", kind == f"i{count}"
            yield from bits_by_16(made if is_number else f"%{name}", int(count), lanes, name)
            if not is_number:
                yield f"  {made} = bitcast i{count} %{name} to {kind}\n"
        elif MORE_BITS.search(line):
            raise Refused(f"clang may not compile this as it is meant: {line.strip()}")
        else:
            is_declared = is_declared or line.startswith("declare") and f"{MASK}(" in line
            yield line
    if not is_declared:
        yield f"declare i32 {MASK}(<{LANES} x i8>)\n"


def rewritten(source, target, by):
    with open(source) as given, open(target, "w") as made:
        made.writelines(by(given))


def number_at(data, at):
    """A number of a module, which has seven bits in each byte, and the place after it."""
    found = shift = 0
    while True:
        found |= (data[at] & 0x7F) << shift
        at, shift = at + 1, shift + 7
        if data[at - 1] < 0x80:
            return found, at


def without_table(module):
    """A module without its table of functions, whose numbers have 64 bits, unknown to Node 22 and
    older. The program calls no function by a number, so no function is in the table."""
    kept, at = module[:8], 8
    while at < len(module):
        size, begin = number_at(module, at + 1)
        if module[at] == ELEMENTS:
            raise Refused("the program calls functions by their numbers")
        kept += b"" if module[at] == TABLE else module[at : begin + size]
        at = begin + size
    return kept


def module_of(bitcode, tools, folder):
    """The module of a program. `tools` has the kit's clang and linker."""
    clang = [tools / "clang", "-Wno-override-module"]
    here = [*clang, *TARGET, *OPTIONS]
    as_given = ["-x", "ir", "-Xclang", "-disable-llvm-passes"]
    as_text = ["-S", "-emit-llvm"]
    given, text, better, best = [folder / f"{it}.ll" for it in ("given", "text", "better", "best")]
    program, system, module = [folder / it for it in ("program.o", "system.o", "program.wasm")]
    output(*clang, *as_given, *as_text, bitcode, "-o", given)
    rewritten(given, text, for_webassembly)
    output(*here, "-x", "ir", *as_text, text, "-o", better)
    rewritten(better, best, with_bits_by_16)
    output(*here, *as_given, "-c", best, "-o", program)
    output(*here, *OF_SYSTEM, "-c", SYSTEM, "-o", system)
    output(tools / "ld.lld", *LINKED, "-o", module, program, system)
    return without_table(module.read_bytes())
