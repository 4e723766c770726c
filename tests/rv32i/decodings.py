"""What each instruction means, by the specification, and words that are none."""

CONDITIONS = ("Eq", "Ne", "Lt", "Ge", "Ltu", "Geu")
LOADS = ("Lb", "Lh", "Lw", "Lbu", "Lhu")
STORES = ("Sb", "Sh", "Sw")
OPERATIONS = ("Add", "Sub", "Sll", "Slt", "Sltu", "Xor", "Srl", "Sra", "Or", "And")


def number(value):
    value %= 2**32
    return str(value) if value < 10 else f"{value:#x}"


def upper(imm):
    """The immediate of which an instruction holds the upper twenty bits."""
    return number(imm << 12)


def named(kind):
    return lambda name: f"{kind}::{name}"


def form(variant, text, **fields):
    """Makes an instruction's text and its decoding from the values of its fields. Beside each field
    stands what writes its value in Rust."""

    def build(*values):
        held = dict(zip(fields, values, strict=True))
        written = ", ".join(f"{name}: {write(held[name])}" for name, write in fields.items())
        return text.format(**held).lower(), f"{variant} {{ {written} }}"

    return build


load_kind, store_kind, operation = map(named, ("LoadKind", "StoreKind", "Operation"))

lui = form("Lui", "lui x{rd}, {imm:#x}", rd=str, imm=upper)
auipc = form("Auipc", "auipc x{rd}, {imm:#x}", rd=str, imm=upper)
jal = form("Jal", "jal x{rd}, .{offset:+}", rd=str, offset=number)
jalr = form("Jalr", "jalr x{rd}, {offset}(x{rs1})", rd=str, rs1=str, offset=number)
branch = form(
    "Branch",
    "b{condition} x{rs1}, x{rs2}, .{offset:+}",
    condition=named("Condition"),
    rs1=str,
    rs2=str,
    offset=number,
)
load = form(
    "Load", "{kind} x{rd}, {offset}(x{rs1})", kind=load_kind, rd=str, rs1=str, offset=number
)
store = form(
    "Store", "{kind} x{rs2}, {offset}(x{rs1})", kind=store_kind, rs1=str, rs2=str, offset=number
)
op = form("Op", "{operation} x{rd}, x{rs1}, x{rs2}", operation=operation, rd=str, rs1=str, rs2=str)


def op_imm(name, operation, rd, rs1, written, imm):
    """An operation on an immediate, which a shift writes otherwise than it carries it."""
    return (
        f"{name} x{rd}, x{rs1}, {written}",
        f"OpImm {{ operation: Operation::{operation}, rd: {rd}, rs1: {rs1}, "
        f"imm: {number(imm)} }}",
    )


# An instruction's text and its decoding: each of the forty once, some at both ends of a field.
EACH = [
    lui(1, 0x80000),
    lui(31, 0x7FFFF),
    auipc(2, 0xFFFFF),
    auipc(30, 1),
    jal(3, 1048574),
    jal(29, -1048576),
    jalr(4, 5, 2047),
    jalr(28, 27, -2048),
    *(branch(condition, 6, 7, 4094) for condition in CONDITIONS),
    branch("Eq", 31, 30, -4096),
    *(load(kind, 8, 9, -2048) for kind in LOADS),
    load("Lw", 31, 30, 2047),
    *(store(kind, 10, 11, -2048) for kind in STORES),
    store("Sw", 31, 30, 2047),
    op_imm("addi", "Add", 12, 13, -2048, -2048),
    op_imm("slti", "Slt", 12, 13, 2047, 2047),
    op_imm("sltiu", "Sltu", 12, 13, -1, -1),
    op_imm("xori", "Xor", 12, 13, -1, -1),
    op_imm("ori", "Or", 12, 13, 2047, 2047),
    op_imm("andi", "And", 12, 13, -2048, -2048),
    # A shift carries its whole immediate, with the bit that tells SRAI from SRLI.
    op_imm("slli", "Sll", 12, 13, 0, 0),
    op_imm("slli", "Sll", 12, 13, 31, 31),
    op_imm("srli", "Srl", 12, 13, 0, 0),
    op_imm("srli", "Srl", 12, 13, 31, 31),
    op_imm("srai", "Sra", 12, 13, 0, 0x400),
    op_imm("srai", "Sra", 12, 13, 31, 0x41F),
    *(op(operation, 14, 15, 16) for operation in OPERATIONS),
    ("fence", "Fence"),
    (".word 0x0000000f", "Fence"),
    (".word 0xffff8f8f", "Fence"),
    ("ecall", "Ecall"),
    ("ebreak", "Ebreak"),
]

# Each bit of a field alone.
BITS = [
    *(op("Add", 1 << k, 0, 0) for k in range(5)),
    *(op("Add", 0, 1 << k, 0) for k in range(5)),
    *(op("Add", 0, 0, 1 << k) for k in range(5)),
    *(op_imm("addi", "Add", 0, 0, 1 << k, 1 << k) for k in range(11)),
    *(store("Sb", 0, 0, 1 << k) for k in range(11)),
    *(branch("Eq", 0, 0, 1 << k) for k in range(1, 12)),
    *(lui(0, 1 << k) for k in (0, 7, 8, 18)),
    *(jal(0, 1 << k) for k in range(1, 20)),
]

DECODINGS = EACH + BITS


def with_funct3(word, values):
    return [word | value << 12 for value in values]


def with_funct7(word, values):
    return [word | value << 25 for value in values]


# Neither 0 nor 0x20, which RV32I has, nor 1, which is multiplication.
OTHER_FUNCT7 = (0x02, 0x10, 0x21, 0x40, 0x60, 0x7F)

# Words that are no instruction of RV32I, by what is wrong with them.
REFUSED = {
    "nothing but zeros or ones": [0x00000000, 0xFFFFFFFF],
    "compressed: C.LW, C.NOP, C.JR, C.EBREAK": [0x00004188, 0x00010001, 0x00008082, 0x00009002],
    "LUI, ADDI and EBREAK but for the two lowest bits": [0x000010B4, 0x00000010, 0x00100070],
    "FENCE.I, and the other values of funct3": with_funct3(0x0000000F, range(1, 8)),
    "JALR with a funct3": with_funct3(0x00000067, range(1, 8)),
    "branches 2 and 3": with_funct3(0x00000063, (2, 3)),
    "loads LD, LWU and 7": with_funct3(0x00000003, (3, 6, 7)),
    "stores SD and above": with_funct3(0x00000023, range(3, 8)),
    "MUL to REMU": with_funct3(0x02000033, range(8)),
    "funct7 0x20 where there is no second operation": with_funct3(0x40000033, (1, 2, 3, 4, 6, 7)),
    "ADD and SUB with another funct7": with_funct7(0x00000033, OTHER_FUNCT7),
    "SRL and SRA with another funct7": with_funct7(0x00005033, OTHER_FUNCT7),
    "SLLI with a funct7": with_funct7(0x00001013, (0x01, 0x20, *OTHER_FUNCT7)),
    "SRLI and SRAI with another funct7": with_funct7(0x00005013, (0x01, *OTHER_FUNCT7)),
    "URET, SRET, MRET, WFI, SFENCE.VMA": [
        0x00200073,
        0x10200073,
        0x30200073,
        0x10500073,
        0x12000073,
    ],
    "ECALL and EBREAK with an rd or rs1": [0x000000F3, 0x00008073, 0x001000F3, 0x00108073],
    "CSRRW to CSRRCI, and funct3 4 between them": with_funct3(0x30010073, range(1, 8)),
    "opcodes of extensions": [
        0x00002007,
        0x00002027,
        0x1000202F,
        0x00000043,
        0x00000053,
        0x02000057,
        0x0000001B,
        0x0000003B,
    ],
    "opcodes that are free or reserved": [
        0x0000000B,
        0x0000002B,
        0x0000005B,
        0x0000007B,
        0x0000006B,
        0x0000007F,
    ],
}
