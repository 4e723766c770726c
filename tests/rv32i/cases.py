"""The instructions that are run, and what stands in registers and memory before each."""

from dataclasses import dataclass, field

# The word in every register and every word of memory that a case does not name.
IDLE = 0x5EED5EED
# Where an instruction stands unless its case says otherwise.
START = 8
# The index and the address of the word that loads read and stores write.
CELL = 12
DATA = 4 * CELL
# The size of the memory: enough to have an instruction at FAR.
WORDS = 1040
FAR = 0x1000

LEAST = 0x80000000
MOST = 0x7FFFFFFF
ONES = 0xFFFFFFFF
MIXED = 0x12345678


@dataclass(frozen=True)
class Case:
    text: str
    before: dict = field(default_factory=dict)
    # The register that is written, if the instruction names one.
    rd: int | None = None
    pc: int = START
    data: int = IDLE


def word(value):
    return value % 2**32


def operation(name, a, b, rd=5, rs1=6, rs2=7):
    return Case(f"{name} x{rd}, x{rs1}, x{rs2}", {rs1: a, rs2: b}, rd)


def immediate(name, a, imm, rd=5, rs1=6):
    return Case(f"{name} x{rd}, x{rs1}, {imm}", {rs1: a}, rd)


def upper(name, imm, rd=5, pc=START):
    return Case(f"{name} x{rd}, {imm:#x}", {}, rd, pc)


def jump(offset, rd=1, pc=START):
    return Case(f"jal x{rd}, .{offset:+}", {}, rd, pc)


def jump_register(a, offset, rd=1, rs1=6):
    return Case(f"jalr x{rd}, {offset}(x{rs1})", {rs1: a}, rd)


def branch(name, a, b, offset=8, rs1=6, rs2=7):
    return Case(f"{name} x{rs1}, x{rs2}, .{offset:+}", {rs1: a, rs2: b})


def load(name, byte, data, offset=0, rd=5, rs1=6):
    """A load from a byte of the cell, whatever base the offset then asks for."""
    return Case(f"{name} x{rd}, {offset}(x{rs1})", {rs1: word(DATA + byte - offset)}, rd, data=data)


def store(name, byte, value, offset=0, rs1=6, rs2=7):
    text = f"{name} x{rs2}, {offset}(x{rs1})"
    return Case(text, {rs1: word(DATA + byte - offset), rs2: value}, data=0xA1B2C3D4)


def each(build, names, operands):
    return [build(name, *row) for name in names for row in operands]


SHIFTS = ("sll", "srl", "sra")
COMPARISONS = ("slt", "sltu")
LOGIC = ("xor", "or", "and")
OPERATION_NAMES = ("add", "sub") + SHIFTS + COMPARISONS + LOGIC

SUMS = [
    (0, 0),
    (MOST, 1),
    (ONES, 1),
    (LEAST, LEAST),
    (ONES, ONES),
    (MIXED, 0x9ABCDEF0),
]
DIFFERENCES = [
    (0, 1),
    (LEAST, 1),
    (MOST, ONES),
    (5, 5),
    (0, LEAST),
    (MIXED, 0x9ABCDEF0),
]
# Only the low five bits of the amount count.
SHIFTED = [(0x80000001, amount) for amount in (0, 1, 31, 32, 33, 0xFFFFFFE0, ONES)] + [
    (0x7FFFFFFE, 31),
    (0x7FFFFFFE, 16),
]
COMPARED = [
    (LEAST, MOST),
    (MOST, LEAST),
    (LEAST, LEAST),
    (MOST, MOST),
    (0, ONES),
    (ONES, 0),
    (0, LEAST),
    (LEAST, 0),
    (1, 2),
    (2, 1),
]
MASKED = [
    (0xFF00FF00, 0x0F0F0F0F),
    (ONES, MIXED),
    (0, MIXED),
    (0xA5A5A5A5, 0xA5A5A5A5),
]
# Destination and sources that are one register, x0, or the last ones.
SHAPES = [
    (0xF0F0F0F0, 3, 6, 6, 7),
    (0xF0F0F0F0, 3, 7, 6, 7),
    (0xF0F0F0F0, 0xF0F0F0F0, 6, 6, 6),
    (0, 3, 5, 0, 7),
    (0xF0F0F0F0, 0, 5, 6, 0),
    (0xF0F0F0F0, 3, 31, 30, 29),
]

OPERATIONS = (
    each(operation, ("add",), SUMS)
    + each(operation, ("sub",), DIFFERENCES)
    + each(operation, SHIFTS, SHIFTED)
    + each(operation, COMPARISONS, COMPARED)
    + each(operation, LOGIC, MASKED)
    + each(operation, OPERATION_NAMES, [(0xF0F0F0F0, 3, 0)])
    + each(operation, ("add", "sub", "sra", "sltu"), SHAPES)
)

SUMS_IMMEDIATE = [
    (0, 0),
    (0, 2047),
    (0, -2048),
    (0, -1),
    (MOST, 1),
    (MOST, 2047),
    (LEAST, -1),
    (LEAST, -2048),
    (ONES, 1),
]
COMPARED_IMMEDIATE = [
    (0, 0),
    (0, 1),
    (0, -1),
    (ONES, -1),
    (0xFFFFFFFE, -1),
    (LEAST, -2048),
    (0xFFFFF800, -2048),
    (0xFFFFF7FF, -2048),
    (MOST, 2047),
    (2047, 2047),
    (2046, 2047),
    (LEAST, 2047),
]
MASKED_IMMEDIATE = [(MIXED, 0), (MIXED, 2047), (MIXED, -2048), (MIXED, -1)]
SHIFTED_IMMEDIATE = [
    (0x80000001, 0),
    (0x80000001, 1),
    (0x80000001, 31),
    (0x7FFFFFFE, 31),
    (0xDEADBEEF, 16),
]
IMMEDIATE_NAMES = ("addi", "slti", "sltiu", "xori", "ori", "andi", "slli", "srli", "srai")

IMMEDIATES = (
    each(immediate, ("addi",), SUMS_IMMEDIATE)
    + each(immediate, ("slti", "sltiu"), COMPARED_IMMEDIATE)
    + each(immediate, ("xori", "ori", "andi"), MASKED_IMMEDIATE)
    + each(immediate, ("slli", "srli", "srai"), SHIFTED_IMMEDIATE)
    + each(immediate, IMMEDIATE_NAMES, [(0xF0F0F0F0, 3, 0)])
    + [
        immediate("addi", 100, -101, 6, 6),
        immediate("addi", 0, 7, 5, 0),
        immediate("sltiu", 0, -2048, 31, 0),
        immediate("srai", 0xF0F0F0F0, 4, 31, 30),
    ]
    + [upper("lui", imm) for imm in (0, 1, 0x7FFFF, 0x80000, 0xFFFFF)]
    + [upper("lui", 0x12345, 0), upper("lui", 0x12345, 31)]
    # The fields of a FENCE but for the opcode and funct3 are free.
    + [Case("fence"), Case("fence rw, w"), Case("fence.tso"), Case(".word 0xffff8f8f")]
)

RELATIVES = (
    [upper("auipc", imm) for imm in (0, 1, 0x7FFFF, 0x80000, 0xFFFFF)]
    + [upper("auipc", 0xFFFFF, 31, FAR), upper("auipc", 0xFFFFF, 5, FAR + 4), upper("auipc", 1, 0)]
    + [jump(offset) for offset in (0, 4, -4, -8, -12, 2048, 4096, 1048572, -1048576)]
    + [jump(8, 0), jump(-8, 31), jump(-1048576, 1, FAR)]
    + [
        jump_register(0x100, 0),
        jump_register(0x101, 0),
        jump_register(0x103, 1),
        jump_register(0x101, 2047),
        jump_register(0x105, 2047),
        jump_register(0x800, -2048),
        jump_register(0, -2048),
        jump_register(0x7FFFFFFC, 4),
        jump_register(ONES, 5),
        jump_register(0xFFFFFFFC, 0),
        jump_register(0x200, 16, 6, 6),
        jump_register(0x202, -1, 1, 1),
        jump_register(0x200, 4, 0, 1),
        jump_register(0, 8, 1, 0),
        jump_register(0, -4, 0, 0),
        jump_register(0x40, 0, 31, 30),
    ]
)

CONDITIONS = ("beq", "bne", "blt", "bge", "bltu", "bgeu")
BRANCHED = [
    (5, 5),
    (ONES, 1),
    (1, ONES),
    (LEAST, MOST),
    (MOST, LEAST),
    (0x7FFFFFFE, MOST),
]
# Operands with which each condition holds.
TAKEN = {
    "beq": (MIXED, MIXED),
    "bne": (MIXED, MIXED + 1),
    "blt": (ONES, 0),
    "bge": (0, ONES),
    "bltu": (0, ONES),
    "bgeu": (ONES, 0),
}

BRANCHES = (
    each(branch, CONDITIONS, BRANCHED)
    + [branch(name, *TAKEN[name], offset) for name in CONDITIONS for offset in (-4096, 4092)]
    + [
        branch("beq", 0, 0, 0, 0, 0),
        branch("bne", 5, 5, -8, 6, 6),
        branch("bge", 5, 5, -4, 6, 6),
        branch("blt", 0, 1, -8, 0, 7),
        branch("bltu", 1, 0, -8, 6, 0),
        branch("bgeu", 1, 0, 2048, 31, 0),
    ]
)

BYTES = (0x80FF7F01, 0x7F8001FE)
HALVES = (0x80FF7F01, 0x7FFF8000)
LOAD_WIDTHS = {"lb": 1, "lh": 2, "lw": 4, "lbu": 1, "lhu": 2}
STORE_WIDTHS = {"sb": 1, "sh": 2, "sw": 4}


def far_offsets(width):
    """The first place of the cell at the least offset, the last of this width at the greatest."""
    return [(0, -2048), (4 - width, 2047)]


LOADS = (
    [load(name, byte, data) for name in ("lb", "lbu") for data in BYTES for byte in range(4)]
    + [load(name, byte, data) for name in ("lh", "lhu") for data in HALVES for byte in (0, 2)]
    + [load("lw", 0, data) for data in (BYTES[0], HALVES[1])]
    + [
        load(name, byte, BYTES[0], offset)
        for name, width in LOAD_WIDTHS.items()
        for byte, offset in far_offsets(width)
    ]
    + [load(name, 0, BYTES[0], 4, 0) for name in LOAD_WIDTHS]
    + [
        load("lw", 0, BYTES[0], -4, 6, 6),
        load("lbu", 3, BYTES[0], 8, 6, 6),
        load("lh", 2, BYTES[0], DATA + 2, 5, 0),
        load("lhu", 2, BYTES[0], -1, 31, 30),
    ]
)

STORES = (
    [store("sb", byte, value) for value in (0x12345687, 0xFFFFFF00) for byte in range(4)]
    + [store("sh", byte, value) for value in (0x1234F678, 0xFFFF0000) for byte in (0, 2)]
    + [store("sw", 0, value) for value in (MIXED, LEAST)]
    + [
        store(name, byte, 0x12345687, offset)
        for name, width in STORE_WIDTHS.items()
        for byte, offset in far_offsets(width)
    ]
    + [store(name, 0, 0, 12, 6, 0) for name in STORE_WIDTHS]
    + [store(name, 0, 0x12345687, DATA, 0, 7) for name in STORE_WIDTHS]
    + [
        store("sw", 0, DATA, 0, 6, 6),
        store("sh", 2, DATA + 18, -16, 6, 6),
        store("sb", 1, 0x12345687, 1, 31, 30),
    ]
)
