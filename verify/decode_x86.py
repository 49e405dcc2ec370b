# SPDX-License-Identifier: ISC
"""Reads the bytes of instructions of x86-64, those that have a meaning in x86.py and a few more, as
text in the form of objdump: the destination last.

The tables have opcodes in the manual's form: Intel 64 and IA-32 Architectures Software Developer's
Manual, volume 2, appendix A. Operands are named by letters, the destination first as there:

    E G     a general register or memory, and one by the other field of ModRM; e, g of 8 bits
    I J     a number, of at most 32 bits; where a jump goes; i, j of 8 bits
    V W H   a vector, a vector or memory, and a vector by VEX; v, w of 128 bits at most
    M       memory alone; R a general register alone; U a vector alone; 1, C, X: 1, %cl, %xmm0

What isn't in the tables is refused. tests/verify compares all that is read with objdump.
"""

import re
from collections import namedtuple


class Unreadable(Exception):
    """Bytes that are no instruction of the tables."""


Row = namedtuple("Row", "name operands")
CONDITIONS = "o no b ae e ne be a s ns p np l ge le g".split()
ARITHMETIC = "add or adc sbb and sub xor cmp".split()
LETTERS = {8: "b", 16: "w", 32: "l", 64: "q"}

# General instructions, by opcode. A name with / has an operation by the field of ModRM.
ONE_BYTE = {
    0x63: Row("movslq", "G E32"), 0x69: Row("imul", "G E I"), 0x6b: Row("imul", "G E is"),
    0x80: Row("/arithmetic", "e i"), 0x81: Row("/arithmetic", "E I"),
    0x83: Row("/arithmetic", "E is"), 0x84: Row("test", "e g"), 0x85: Row("test", "E G"),
    0x86: Row("xchg", "e g"), 0x87: Row("xchg", "E G"), 0x88: Row("mov", "e g"),
    0x89: Row("mov", "E G"), 0x8a: Row("mov", "g e"), 0x8b: Row("mov", "G E"),
    0x8d: Row("lea", "G M"), 0x90: Row("nop", ""), 0xa8: Row("test", "al i"),
    0xa9: Row("test", "ax I"), 0xc0: Row("/shift", "e i"), 0xc1: Row("/shift", "E i"),
    0xc3: Row("ret", ""), 0xc6: Row("/move", "e i"), 0xc7: Row("/move", "E I"),
    0xd0: Row("/shift", "e"), 0xd1: Row("/shift", "E"), 0xd2: Row("/shift", "e C"),
    0xd3: Row("/shift", "E C"), 0xe8: Row("call", "J"), 0xe9: Row("jmp", "J"),
    0xeb: Row("jmp", "j"), 0xf6: Row("/unary8", "e"), 0xf7: Row("/unary", "E"),
    0xfe: Row("/count", "e"), 0xff: Row("/count or jump", "E"),
    **{0x70 + i: Row("j" + it, "j") for i, it in enumerate(CONDITIONS)},
    **{8 * i + at: Row(it, operands) for i, it in enumerate(ARITHMETIC)
       for at, operands in enumerate(("e g", "E G", "g e", "G E", "al i", "ax I"))},
    **{0x50 + i: Row("push", "O64") for i in range(8)},
    **{0x58 + i: Row("pop", "O64") for i in range(8)},
    **{0xb0 + i: Row("mov", "O8 i") for i in range(8)},
    **{0xb8 + i: Row("mov", "O I64") for i in range(8)},
    **{0x91 + i: Row("xchg", "O ax") for i in range(7)},
}
GROUPS = {
    "/arithmetic": dict(enumerate(ARITHMETIC)),
    "/shift": {0: "rol", 1: "ror", 4: "shl", 5: "shr", 7: "sar"},
    "/move": {0: "mov"},
    "/unary": {0: "test I", 2: "not", 3: "neg", 4: "mul", 5: "imul", 6: "div"},
    "/unary8": {0: "test i", 2: "not", 3: "neg"},
    "/count": {0: "inc", 1: "dec"},
    "/count or jump": {0: "inc", 1: "dec", 2: "call *", 4: "jmp *", 6: "push"},
    "/bit": {4: "bt"}, "/lowest": {1: "blsr"},
}
TWO_BYTES = {
    0x0b: Row("ud2", ""), 0x1f: Row("nop", "E"), 0xa2: Row("cpuid", ""), 0xa3: Row("bt", "E G"),
    0xa4: Row("shld", "E G i"), 0xac: Row("shrd", "E G i"), 0xaf: Row("imul", "G E"),
    0xb6: Row("movzb", "G e"), 0xb7: Row("movzw", "G E16"), 0xba: Row("/bit", "E i"),
    0xbc: Row("bsf", "G E"), 0xbd: Row("bsr", "G E"),
    0xbe: Row("movsb", "G e"), 0xbf: Row("movsw", "G E16"),
    **{0x40 + i: Row("cmov" + it, "G E") for i, it in enumerate(CONDITIONS)},
    **{0x80 + i: Row("j" + it, "J") for i, it in enumerate(CONDITIONS)},
    **{0x90 + i: Row("set" + it, "e") for i, it in enumerate(CONDITIONS)},
    **{0xc8 + i: Row("bswap", "O") for i in range(8)},
}
AFTER_F3 = {0xbc: Row("tzcnt", "G E"), 0xbd: Row("lzcnt", "G E")}
THREE_BYTES = {0xf0: Row("movbe", "G M"), 0xf1: Row("movbe", "M G")}
# Instructions with VEX over general registers, by (prefix, map, opcode).
GENERAL_VEX = {
    ("", "0F38", 0xf2): Row("andn", "G B E"), ("66", "0F38", 0xf7): Row("shlx", "G E B"),
    ("F3", "0F38", 0xf7): Row("sarx", "G E B"), ("F2", "0F38", 0xf7): Row("shrx", "G E B"),
    ("F2", "0F3A", 0xf0): Row("rorx", "G E i"), ("F2", "0F38", 0xf6): Row("mulx", "G B E"),
    ("", "0F38", 0xf3): Row("/lowest", "B E"),
}

# Instructions over vectors: prefix, map, opcode (with the field of ModRM after a slash), what VEX
# asks for (SSE: none is there; VEX: it is; w0, w1: and this bit of it), name, operands. With VEX a
# name has a v before it, and H stands; without, H isn't there, and the destination is the source.
VECTORS = """
-- 0F   10   any movups  V W    -- 0F   11   any movups  W V    F3 0F   10   any movss   S w32
F3 0F   11   any movss   w32 S  F2 0F   10   any movsd   S w64  F2 0F   11   any movsd   w64 S
-- 0F   12   SSE movlps  V M    -- 0F   13   any movlps  M V    -- 0F   16   any movhps  V M/movlhps
-- 0F   17   any movhps  M V    -- 0F   28   any movaps  V W    -- 0F   29   any movaps  W V
-- 0F   54   any andps   V H W  -- 0F   56   any orps    V H W  -- 0F   57   any xorps   V H W
-- 0F   77   VEX zeroupper -    -- 0F   c6   any shufps  V H W i
66 0F   60   any punpcklbw   V H W  66 0F   68   any punpckhbw   V H W
66 0F   74   any pcmpeqb V H W  66 0F   d7   any pmovmskb G32 U
66 0F   62   any punpckldq   V H W  66 0F   6a   any punpckhdq   V H W
66 0F   6c   any punpcklqdq  V H W  66 0F   6d   any punpckhqdq  V H W
66 0F   6e   any movd    v D    66 0F   7e   any movd    D v    F3 0F   7e   any movq    v w
66 0F   d6   any movq    w v    66 0F   6f   any movdqa  V W    66 0F   7f   any movdqa  W V
F3 0F   6f   any movdqu  V W    F3 0F   7f   any movdqu  W V    66 0F   70   any pshufd  V W i
66 0F   71/2 any psrlw   H U i  66 0F   71/6 any psllw   H U i  66 0F   72/2 any psrld   H U i
66 0F   72/6 any pslld   H U i  66 0F   73/2 any psrlq   H U i  66 0F   73/3 any psrldq  H U i
66 0F   73/6 any psllq   H U i  66 0F   73/7 any pslldq  H U i
66 0F   76   any pcmpeqd V H W  66 0F   c4   any pinsrw  v h E32 i  66 0F   c5   any pextrw  G32 u i
66 0F   d4   any paddq   V H W  66 0F   db   any pand    V H W  66 0F   df   any pandn   V H W
66 0F   eb   any por     V H W  66 0F   ef   any pxor    V H W  66 0F   fe   any paddd   V H W
66 0F38 00   any pshufb  V H W  66 0F38 17   any ptest   V W
66 0F38 30   any pmovzxbw V w   66 0F38 31   any pmovzxbd V w   66 0F38 32   any pmovzxbq V w
66 0F38 33   any pmovzxwd V w   66 0F38 35   any pmovzxdq V w
66 0F38 16   w0  permps  V H W  66 0F38 18   w0  broadcastss V w  66 0F38 19   w0  broadcastsd V w
66 0F38 36   w0  permd   V H W  66 0F38 45   w0  psrlvd  V H W  66 0F38 45   w1  psrlvq  V H W
66 0F38 47   w0  psllvd  V H W  66 0F38 47   w1  psllvq  V H W
66 0F38 58   w0  pbroadcastd V w  66 0F38 59   w0  pbroadcastq V w
66 0F38 5a   w0  broadcasti128 V M               66 0F38 78   w0  pbroadcastb V w
-- 0F38 c8   SSE sha1nexte   V W  -- 0F38 c9   SSE sha1msg1    V W
-- 0F38 ca   SSE sha1msg2    V W  -- 0F38 cb   SSE sha256rnds2 V W X
-- 0F38 cc   SSE sha256msg1  V W  -- 0F38 cd   SSE sha256msg2  V W
66 0F3A 00   w1  permq   V W i  66 0F3A 01   w1  permpd  V W i
66 0F3A 02   w0  pblendd V H W i  66 0F3A 0c   any blendps V H W i  66 0F3A 0e   any pblendw V H W i
66 0F3A 0f   any palignr V H W i  66 0F3A 14   any pextrb  E32 v i  66 0F3A 15   any pextrw  E32 v i
66 0F3A 16   any pextr   D v i  66 0F3A 17   any extractps E32 v i
66 0F3A 18   w0  insertf128 V H w i  66 0F3A 20   any pinsrb  v h E32 i
66 0F3A 21   any insertps V H W i  66 0F3A 22   any pinsr   v h D i
66 0F3A 38   w0  inserti128 V H w i  66 0F3A 39   w0  extracti128 w V i
66 0F3A 46   w0  perm2i128 V H W i
-- 0F3A cc   SSE sha1rnds4 V W i
"""
VECTOR_ROWS = {}
for _it in re.finditer(r"(--|66|F2|F3) (\w+) +(\w\w)(/\d)? +(any|SSE|VEX|w0|w1) +(\S+) +"
                       r"((?:[\w/-]+ )*?[\w/-]+)(?=  +|\n)", VECTORS):
    _key = (_it[1].replace("-", ""), _it[2], int(_it[3], 16))
    VECTOR_ROWS.setdefault(_key, []).append(
        (int(_it[4][1:]) if _it[4] else None, _it[5], Row(_it[6], _it[7].strip("-"))))

# With VEX these are of 128 bits alone, and those of 256 alone.
SHORT = {"movd", "pextr", "pextrb", "pextrw", "pinsr", "pinsrb", "pinsrw", "insertps", "extractps",
         "movq", "movlps", "movhps", "movlhps", "zeroupper"}
WIDE = {"permps", "permd", "permq", "permpd", "broadcastsd", "broadcasti128", "insertf128",
        "inserti128", "extracti128", "perm2i128"}

LONG = ["rax", "rcx", "rdx", "rbx", "rsp", "rbp", "rsi", "rdi", *(f"r{i}" for i in range(8, 16))]


def register(number, width, has_rex=True):
    name = LONG[number]
    if number > 7:
        return "%" + name + {8: "b", 16: "w", 32: "d", 64: ""}[width]
    if width == 8:
        if number < 4:
            return "%" + name[1] + "l"
        return "%" + (name[1:] + "l" if has_rex else ("ah", "ch", "dh", "bh")[number - 4])
    return "%" + {16: name[1:], 32: "e" + name[1:], 64: name}[width]


class Reader:
    """The bytes of an instruction, and what of it is read so far."""

    def __init__(self, data, address):
        self.data, self.at, self.address = data, 0, address
        self.prefixes, self.rex, self.vex = set(), 0, None
        self.R = self.X = self.B = self.W = self.L = self.vvvv = 0
        self.modrm, self.memory = None, None

    def byte(self):
        if self.at >= len(self.data) or self.at >= 15:
            raise Unreadable("too few bytes")
        self.at += 1
        return self.data[self.at - 1]

    def number(self, size):
        value = sum(self.byte() << 8 * i for i in range(size))
        return value - (1 << 8 * size) if value >> (8 * size - 1) else value

    def read_modrm(self):
        """ModRM, SIB and displacement."""
        if self.modrm is not None:
            return
        self.modrm = self.byte()
        mod, low = self.modrm >> 6, self.modrm & 7
        if mod == 3:
            return
        base, index, scale = low, None, 0
        if low == 4:
            sib = self.byte()
            scale, index, base = 1 << (sib >> 6), sib >> 3 & 7 | self.X << 3, sib & 7
        at_rip, no_base = low == 5 and mod == 0, low == 4 and base == 5 and mod == 0
        if no_base and index == 4:
            raise Unreadable("an address that is a number")
        size = 4 if mod == 2 or at_rip or no_base else mod
        displacement = self.number(size) if size else 0
        text = f"{'-' if displacement < 0 else ''}{abs(displacement):#x}" if size else ""
        name = "%rip" if at_rip else "" if no_base else register(base | self.B << 3, 64)
        if index is None or index == 4 and scale == 1 and base == 4:
            self.memory = f"{text}({name})"
        elif index == 4:
            self.memory = f"{text}({name},%riz,{scale})"
        else:
            self.memory = f"{text}({name},{register(index, 64)},{scale})"

    def reg(self):
        self.read_modrm()
        return self.modrm >> 3 & 7 | self.R << 3

    def rm(self):
        self.read_modrm()
        return self.modrm & 7 | self.B << 3

    def prefix(self):
        """The prefix that belongs to the opcode."""
        found = self.prefixes & {"F2", "F3"} or self.prefixes & {"66"}
        return next(iter(found), "")


def read_prefixes(reader):
    names = {0x66: "66", 0xf2: "F2", 0xf3: "F3", 0x2e: "cs"}
    while (it := reader.byte()) in names:
        reader.prefixes.add(names[it])
    if it >> 4 == 4:
        reader.rex = it
        reader.W, reader.R, reader.X, reader.B = (it >> i & 1 for i in (3, 2, 1, 0))
        it = reader.byte()
    return it


def read_vex(reader, first):
    """VEX of two or three bytes; gives the map."""
    if reader.prefixes or reader.rex:
        raise Unreadable("a prefix before VEX")
    second = reader.byte()
    reader.R, of_map = 1 - (second >> 7), 1
    if first == 0xc4:
        reader.X, reader.B = 1 - (second >> 6 & 1), 1 - (second >> 5 & 1)
        of_map = second & 31
        second = reader.byte()
        reader.W = second >> 7
    reader.vvvv, reader.L = 15 - (second >> 3 & 15), second >> 2 & 1
    reader.prefixes = {("", "66", "F3", "F2")[second & 3]} - {""}
    reader.vex = True
    if of_map not in (1, 2, 3):
        raise Unreadable("a map of opcodes that doesn't exist")
    return ("0F", "0F38", "0F3A")[of_map - 1]


def vector(number, width):
    return f"%{'y' if width == 256 else 'x'}mm{number}"


def operand(reader, letter, width, opcode):
    """The text of an operand, in an instruction over words of a width, or vectors of it."""
    kind, own = letter[0], letter[1:]
    if letter in ("al", "ax"):
        return register(0, 8 if letter == "al" else width)
    if kind in "EeRDwWU" and kind != "R":
        number = reader.rm()
        if reader.memory is not None:
            if kind == "U":
                raise Unreadable("memory where a vector has to be")
            return reader.memory
        if kind in "Ee":
            return register(number, int(own) if own else 8 if kind == "e" else width, reader.rex)
        if kind == "D":
            return register(number, 64 if reader.W else 32)
        return vector(number, 128 if kind == "w" else width)
    if kind == "M":
        reader.read_modrm()
        if reader.memory is None:
            raise Unreadable("a register where memory has to be")
        return reader.memory
    if kind in "Gg":
        return register(reader.reg(), int(own) if own else 8 if kind == "g" else width, reader.rex)
    if kind == "O":
        return register(opcode & 7 | reader.B << 3, int(own) if own else width, reader.rex)
    if kind in "Vv":
        return vector(reader.reg(), 128 if kind == "v" else width)
    if kind in "Hh":
        return vector(reader.vvvv, 128 if kind == "h" else width)
    if kind == "u":
        number = reader.rm()
        if reader.memory is not None:
            raise Unreadable("memory where a vector has to be")
        return vector(number, 128)
    if kind == "B":
        return register(reader.vvvv, width)
    if kind in "Ii":
        return immediate(reader, letter, width)
    if kind in "Jj":
        away = reader.number(4 if kind == "J" else 1)
        return f"{(reader.address + reader.at + away) % (1 << 64):x}"
    return {"C": "%cl", "X": "%xmm0"}[kind]


def immediate(reader, letter, width):
    size = 1 if letter[0] == "i" else min(width, int(letter[1:] or 32)) // 8
    number = reader.number(size)
    shown = width if letter[0] == "I" or letter == "is" else 8
    return f"${number & (1 << shown) - 1:#x}"


def text_of(reader, name, letters, width, opcode):
    # A number stands behind what ModRM has.
    if any(it[0] in "EeGgMDwWUuVvR" for it in letters):
        reader.read_modrm()
    operands = [operand(reader, it, width, opcode) for it in letters]
    return f"{name} {','.join(operands[::-1])}".strip()


def general(reader, row, opcode):
    width = 64 if reader.W else 16 if "66" in reader.prefixes else 32
    name, letters = row.name, row.operands.split()
    if ("cs" in reader.prefixes and name != "nop" or name == "bswap" and width == 16
            or name == "movslq" and width != 64):
        raise Unreadable("a prefix that makes no sense")
    if name.startswith("/"):
        reader.read_modrm()
        found = GROUPS[name].get(reader.modrm >> 3 & 7)
        if found is None:
            raise Unreadable("no operation of its group")
        name, _, more = found.partition(" ")
        letters += [more] if more in ("I", "i") else []
        if more == "*" or name == "push":
            if "66" in reader.prefixes:
                raise Unreadable("a prefix that makes no sense")
            text = text_of(reader, "", ["E64"], 64, opcode)
            return f"{name} {'*' if more == '*' else ''}{text}"
    has_register = any(it[0] in "GgOBa" for it in letters)
    if name == "nop":
        text_of(reader, name, letters, width, opcode)
        return "nop"
    if name in ("push", "pop", "call", "ret") or name[0] == "j":
        if "66" in reader.prefixes:
            raise Unreadable("a prefix that makes no sense")
    if name == "mov" and letters[-1] == "I64":
        name = "movabs" if reader.W else "mov"
    if name[:4] in ("movz", "movs") and name != "movslq":
        name += LETTERS[width]
    text = text_of(reader, name, letters, width, opcode)
    if reader.memory is not None and not has_register and not name.startswith("set"):
        size = 8 if letters[0] == "e" else width
        text = text.replace(name, name + LETTERS[size], 1)
    return text


def over_vectors(reader, key):
    """An instruction of VECTORS, or None."""
    if "cs" in reader.prefixes or reader.prefixes > {"66"}:
        return None
    for field, encoding, row in VECTOR_ROWS.get(key, ()):
        if field is not None:
            reader.read_modrm()
            if reader.modrm >> 3 & 7 != field:
                continue
        if encoding == "SSE" and reader.vex or encoding not in ("any", "SSE") and not reader.vex:
            continue
        if encoding in ("w0", "w1") and reader.W != int(encoding[1]):
            continue
        return vector_text(reader, key[2], row)
    return None


def vector_text(reader, opcode, row):
    name, letters = row.name, row.operands.split()
    width = 256 if reader.L else 128
    if reader.vex and name in (SHORT if reader.L else WIDE):
        raise Unreadable("a length that the instruction doesn't have")
    if "M/movlhps" in letters:
        reader.read_modrm()
        if reader.memory is None:
            name, letters = "movlhps", ["v", "h", "w"]
        elif reader.vex:
            raise Unreadable("vmovhps from memory")
        else:
            letters = ["V", "M"]
    if "S" in letters:  # between registers, the rest is that of another vector
        reader.read_modrm()
        between = reader.memory is None
        letters = [{"S": "v", "w32": "w", "w64": "w"}[it] for it in letters]
        if between and reader.vex:
            letters.insert(1, "h")
        elif reader.vvvv:
            raise Unreadable("a register that the instruction doesn't have")
    elif not reader.vex:
        letters = [it for it in letters if it not in ("H", "h")]
    elif not any(it in ("H", "h") for it in letters) and reader.vvvv:
        raise Unreadable("a register that the instruction doesn't have")
    if name == "pmovmskb" and reader.W:
        raise Unreadable("a width that the instruction doesn't have")
    if name in ("movd", "pextr", "pinsr"):
        if name == "movd":
            name = "movq" if reader.W else "movd"
        else:
            name += "q" if reader.W else "d"
    if any(it in ("w32", "w64") for it in letters):
        letters = [it[0] for it in letters]
    return text_of(reader, ("v" if reader.vex else "") + name, letters, width, opcode)


def read(data, address):
    """The instruction at an address, of these bytes on: (how many it has, its text)."""
    reader = Reader(data, address)
    opcode = read_prefixes(reader)
    if opcode in (0xc4, 0xc5):
        of_map = read_vex(reader, opcode)
        opcode = reader.byte()
        key = (reader.prefix(), of_map, opcode)
        if key in GENERAL_VEX:
            row = GENERAL_VEX[key]
            if row.name in GROUPS:
                reader.read_modrm()
                row = Row(GROUPS[row.name].get(reader.modrm >> 3 & 7), row.operands)
            if row.name is None:
                raise Unreadable("no operation of its group")
            if reader.L or "B" not in row.operands and reader.vvvv:
                raise Unreadable("a length or a register that the instruction doesn't have")
            text = text_of(reader, row.name, row.operands.split(), 64 if reader.W else 32, opcode)
        else:
            text = over_vectors(reader, key)
    else:
        text = without_vex(reader, opcode)
    if text is None:
        raise Unreadable(f"no opcode {opcode:x} in the tables")
    return reader.at, text


def without_vex(reader, opcode):
    if opcode != 0x0f:
        if reader.prefixes & {"F2", "F3"} or opcode not in ONE_BYTE:
            return None
        if opcode == 0x90 and reader.B:
            return text_of(reader, "xchg", ["O", "ax"], 64 if reader.W else 32, opcode)
        return general(reader, ONE_BYTE[opcode], opcode)
    opcode, of_map = reader.byte(), "0F"
    if opcode in (0x38, 0x3a):
        of_map = "0F38" if opcode == 0x38 else "0F3A"
        opcode = reader.byte()
    if of_map == "0F" and reader.prefixes == {"F3"} and opcode == 0x1e and reader.byte() == 0xfa:
        return "endbr64"
    if of_map == "0F" and reader.prefixes == {"F3"} and opcode in AFTER_F3:
        return general(reader, AFTER_F3[opcode], opcode)
    if of_map == "0F" and not reader.prefixes and opcode == 0x01:
        return "xgetbv" if reader.byte() == 0xd0 else None
    if (text := over_vectors(reader, (reader.prefix(), of_map, opcode))) is not None:
        return text
    table = {"0F": TWO_BYTES, "0F38": THREE_BYTES}.get(of_map, {})
    if reader.prefixes & {"F2", "F3"} or opcode not in table:
        return None
    return general(reader, table[opcode], opcode)
