"""Words and programs made by the GNU assembler and linker."""

import os
import struct
import subprocess

TOOL = "riscv64-unknown-elf-"

# Away from 0, so that an offset may lead to a lower address.
FAR = 0x10000000

PLAIN = """
PHDRS { all PT_LOAD FLAGS(7); }
SECTIONS { . = 0; .text : { *(.text) } :all }
"""


def run(tool, *arguments):
    subprocess.run([TOOL + tool, *arguments], check=True)


def link(folder, lines, *options):
    """The path of a program of these lines."""
    source, unlinked, program = (os.path.join(folder, "a." + end) for end in ("s", "o", "elf"))
    with open(source, "w") as file:
        file.write("\n".join([".option norelax", ".globl _start", "_start:", *lines, ""]))
    run("as", "-march=rv32i", "-mabi=ilp32", source, "-o", unlinked)
    run("ld", "-m", "elf32lriscv", "--no-warn-rwx-segments", *options, unlinked, "-o", program)
    return program


def assemble(folder, lines):
    """The word of each line."""
    program = link(folder, lines, f"-Ttext={FAR:#x}")
    binary = os.path.join(folder, "a.bin")
    run("objcopy", "-O", "binary", "-j", ".text", program, binary)
    with open(binary, "rb") as file:
        read = file.read()
    assert len(read) == 4 * len(lines), "a line is not one word"
    return list(struct.unpack(f"<{len(lines)}I", read))


def memory(folder, count, word):
    """The path of a program that is `count` equal words from address 0 on."""
    script = os.path.join(folder, "plain.ld")
    with open(script, "w") as file:
        file.write(PLAIN)
    return link(folder, [f".fill {count}, 4, {word:#x}"], "-T", script)
