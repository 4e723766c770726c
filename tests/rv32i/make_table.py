#!/usr/bin/env python3
"""Writes the tables of crates/rv32i_tests: assembles the cases and runs each under qemu-riscv32."""

import os
import tempfile

import binutils
import qemu
from cases import BRANCHES, IMMEDIATES, LOADS, OPERATIONS, RELATIVES, STORES
from cases import CELL, IDLE, START, WORDS
from decodings import DECODINGS, REFUSED, number

SOURCES = os.path.join(os.path.dirname(os.path.abspath(__file__)), "../../crates/rv32i_tests/src")

GENERATED = "// Written by tests/rv32i/make_table.py, and not edited by hand.\n"

TABLE = """\
// Instructions that qemu-riscv32 ran, each once: the registers and the memory before and after.
use crate::rows::{{Branched, Computed, Linked, Loaded, Stored, X}};

/// The word in every register and every word of memory that a row does not name.
pub const IDLE: u32 = {idle};

/// Where the instruction stands where a row does not say so.
pub const START: u32 = {start};

/// The index of the word that loads read and stores write.
pub const CELL: usize = {cell};

/// The number of words of the memory.
pub const WORDS: usize = {words};
"""

WORDS_TABLE = """\
// Words and what they are: encoded by the GNU assembler, decoded by the specification.
use crate::rows::Decoded;
use rv32i::instruction::{Condition, Instruction, LoadKind, Operation, StoreKind};
"""


class Outcome:
    """What qemu leaves of a case, where nothing but its own parts may have changed."""

    def __init__(self, program, case, word):
        self.case = case
        self.word = word
        registers = [0] + 31 * [IDLE] + [case.pc]
        for index, value in case.before.items():
            registers[index] = value
        assert registers[0] == 0, case
        memory = WORDS * [IDLE]
        memory[CELL] = case.data
        memory[case.pc // 4] = word
        after, cells = qemu.step(program, registers, memory)
        self.next = after[qemu.PC]
        self.data = cells[CELL]
        if case.rd is not None:
            self.result = after[case.rd]
            registers[case.rd] = self.result
        registers[qemu.PC] = self.next
        memory[CELL] = self.data
        assert after == registers and after[0] == 0, case
        assert cells == memory, case

    def head(self):
        return f'"{self.case.text}", 0x{self.word:08x}'

    def before(self):
        held = [f"X({index}, {number(value)})" for index, value in self.case.before.items()]
        return f"&[{', '.join(held)}]"

    def written(self):
        return f"X({self.case.rd}, {number(self.result)})"

    def falls_through(self):
        assert self.next == self.case.pc + 4, self.case

    def keeps_data(self):
        assert self.data == self.case.data, self.case


def computed(outcome):
    outcome.falls_through()
    outcome.keeps_data()
    written = "None" if outcome.case.rd is None else f"Some({outcome.written()})"
    return f"Computed({outcome.head()}, {outcome.before()}, {written})"


def linked(outcome):
    outcome.keeps_data()
    pc, following = number(outcome.case.pc), number(outcome.next)
    return f"Linked({outcome.head()}, {pc}, {outcome.before()}, {following}, {outcome.written()})"


def branched(outcome):
    outcome.keeps_data()
    return f"Branched({outcome.head()}, {outcome.before()}, {number(outcome.next)})"


def loaded(outcome):
    outcome.falls_through()
    outcome.keeps_data()
    data = number(outcome.case.data)
    return f"Loaded({outcome.head()}, {outcome.before()}, {data}, {outcome.written()})"


def stored(outcome):
    outcome.falls_through()
    before, after = number(outcome.case.data), number(outcome.data)
    return f"Stored({outcome.head()}, {outcome.before()}, {before}, {after})"


TABLES = [
    ("Operations on two registers.", "OPERATIONS", OPERATIONS, computed),
    ("Operations on an immediate, LUI and FENCE.", "IMMEDIATES", IMMEDIATES, computed),
    ("What reckons from pc: AUIPC, JAL and, for its link, JALR.", "RELATIVES", RELATIVES, linked),
    ("Branches.", "BRANCHES", BRANCHES, branched),
    ("Loads.", "LOADS", LOADS, loaded),
    ("Stores.", "STORES", STORES, stored),
]


def static(about, name, kind, lines, count):
    rows = "".join(f"    {line}\n" for line in lines)
    head = f"/// {about}\n#[rattlefmt::skip]\npub static {name}: [{kind}; {count}]"
    return f"\n{head} = [\n{rows}];\n"


def executed(folder):
    """The text of table.rt."""
    parts = [GENERATED, TABLE.format(idle=number(IDLE), start=START, cell=CELL, words=WORDS)]
    for about, name, cases, write in TABLES:
        words = binutils.assemble(folder, [case.text for case in cases])
        program = binutils.memory(folder, WORDS, IDLE)
        rows = [write(Outcome(program, case, word)) for case, word in zip(cases, words)]
        kind = rows[0].split("(")[0]
        parts.append(static(about, name, kind, [row + "," for row in rows], len(rows)))
    return "".join(parts)


def is_illegal(program, word):
    try:
        qemu.step(program, [0] + 31 * [IDLE] + [START], [IDLE] * (START // 4) + [word])
    except qemu.IllegalInstruction:
        return True
    return False


def decoded(folder):
    """The text of words.rt."""
    words = binutils.assemble(folder, [text for text, _ in DECODINGS])
    rows = [
        f'Decoded("{text}", 0x{word:08x}, Instruction::{instruction}),'
        for (text, instruction), word in zip(DECODINGS, words)
    ]
    program = binutils.memory(folder, WORDS, IDLE)
    refused = []
    for why, bad in REFUSED.items():
        for word in bad:
            assert is_illegal(program, word), f"{word:#010x} is an instruction of qemu's"
        refused += [f"// {why}", *(f"0x{word:08x}," for word in bad)]
    count = sum(len(bad) for bad in REFUSED.values())
    return "".join(
        [
            GENERATED,
            WORDS_TABLE,
            static("Words and their instructions.", "DECODINGS", "Decoded", rows, len(rows)),
            static("Words that are no instruction.", "REFUSED", "u32", refused, count),
        ]
    )


def main():
    with tempfile.TemporaryDirectory() as folder:
        for name, text in (("table.rt", executed(folder)), ("words.rt", decoded(folder))):
            with open(os.path.join(SOURCES, name), "w") as file:
                file.write(text)


if __name__ == "__main__":
    main()
