# SPDX-License-Identifier: ISC
"""Reads instructions of 64-bit ARM from their bytes, as far as they have a meaning in arm.py, and
writes them as objdump does. tests/verify compares both."""


class Unreadable(Exception):
    """Bytes that have no meaning here."""


CONDITIONS = ("eq ne cs cc mi pl vs vc hi ls ge lt gt le al nv").split()
READERS = []  # triples: which bits are looked at, what they have to be, what reads the others


def reads(pattern):
    """What reads instructions of this pattern: digits, and letters for fields."""
    assert len(pattern) == 32, pattern
    fields = {it: (31 - pattern.rindex(it), pattern.count(it)) for it in set(pattern) - {*"01"}}
    mask = int("".join("01"[it in "01"] for it in pattern), 2)
    value = int("".join(it if it in "01" else "0" for it in pattern), 2)

    def add(run):
        READERS.append((mask, value, fields, run))
        return run
    return add


def read(data, at):
    """The text of the instruction at an address."""
    code = int.from_bytes(data[:4], "little")
    for mask, value, fields, run in READERS:
        if code & mask == value and len(data) >= 4:
            found = run(at, **{name: code >> low & (1 << count) - 1
                               for name, (low, count) in fields.items()})
            if found:
                return found
    raise Unreadable("an instruction without a meaning here")


def signed(number, width):
    return number - (1 << width) if number >> (width - 1) else number


def general(number, is_long, at_31="zero"):
    if number == 31 and at_31 == "sp":
        if not is_long:
            raise Unreadable("a part of the stack pointer")
        return "sp"
    if number == 31:
        return "xzr" if is_long else "wzr"
    return f"{'x' if is_long else 'w'}{number}"


def vector(number, width, whole=128):
    """A vector in parts of a width in bits."""
    return f"v{number}.{whole // width}{'bhsd'[width.bit_length() - 4]}"


# General registers.

@reads("foo01010hhNmmmmmiiiiiinnnnnddddd")
def logical(_, f, o, h, N, m, i, n, d):
    if i > 31 and not f:
        return None
    name = ("and orr eor ands", "bic orn eon bics")[N].split()[o]
    target, first, second = (general(it, f) for it in (d, n, m))
    shift = f", {('lsl', 'lsr', 'asr', 'ror')[h]} #{i}" if i or h else ""
    if name == "orr" and n == 31 and not shift:
        return f"mov {target}, {second}"
    if name == "orn" and n == 31:
        return f"mvn {target}, {second}{shift}"
    if name == "ands" and d == 31:
        return f"tst {first}, {second}{shift}"
    return f"{name} {target}, {first}, {second}{shift}"


@reads("fos01011hh0mmmmmiiiiiinnnnnddddd")
def sum_of_registers(_, f, o, s, h, m, i, n, d):
    if h == 3 or i > 31 and not f:
        return None
    target, first, second = (general(it, f) for it in (d, n, m))
    shift = f", {('lsl', 'lsr', 'asr')[h]} #{i}" if i or h else ""
    if s and d == 31:
        return f"{('cmn', 'cmp')[o]} {first}, {second}{shift}"
    name = ("add", "adds", "sub", "subs")[2 * o + s]
    if o and n == 31:
        return f"neg{'s' * s} {target}, {second}{shift}"
    return f"{name} {target}, {first}, {second}{shift}"


@reads("fos100010hiiiiiiiiiiiinnnnnddddd")
def sum_with_number(_, f, o, s, h, i, n, d):
    first, number = general(n, f, "sp"), f"#0x{i:x}" + ", lsl #12" * h
    target = general(d, f, "zero" if s else "sp")
    if s and d == 31:
        return f"{('cmn', 'cmp')[o]} {first}, {number}"
    if not (o or s or h or i) and 31 in (n, d):
        return f"mov {target}, {first}"
    return f"{('add', 'adds', 'sub', 'subs')[2 * o + s]} {target}, {first}, {number}"


def mask_of(N, r, s, width):
    """The number that an instruction's bits of a mask stand for, or None."""
    length = (N << 6 | ~s & 63).bit_length() - 1
    if length < 1 or width == 32 and N:
        return None
    size = 1 << length
    ones, by = s & size - 1, r & size - 1
    if ones == size - 1:
        return None
    part = (1 << ones + 1) - 1
    part = (part >> by | part << size - by) & (1 << size) - 1
    return sum(part << i for i in range(0, width, size))


def is_wide(number, width):
    """Whether a number has all its ones in one quarter."""
    return any(not number & ~(0xffff << i) for i in range(0, width, 16))


@reads("foo100100Nrrrrrrssssssnnnnnddddd")
def logical_with_number(_, f, o, N, r, s, n, d):
    width = 64 if f else 32
    number = mask_of(N, r, s, width)
    if number is None:
        return None
    target, first = general(d, f, "zero" if o == 3 else "sp"), general(n, f)
    if o == 3 and d == 31:
        return f"tst {first}, #0x{number:x}"
    if o == 1 and n == 31 and not is_wide(number, width) and not is_wide(
            ~number & (1 << width) - 1, width):
        return f"mov {target}, #0x{number:x}"
    return f"{('and', 'orr', 'eor', 'ands')[o]} {target}, {first}, #0x{number:x}"


@reads("f10100101hhiiiiiiiiiiiiiiiiddddd")
def move_wide(_, f, h, i, d):
    return None if h > 1 and not f or h and not i else \
        f"mov {general(d, f)}, #0x{i << 16 * h:x}"


@reads("f00100101hhiiiiiiiiiiiiiiiiddddd")
def move_inverted(_, f, h, i, d):
    number = ~(i << 16 * h) & (1 << (64 if f else 32)) - 1
    if h > 1 and not f or h and not i or not f and is_wide(number, 32):
        return None
    return f"mov {general(d, f)}, #0x{number:x}"


@reads("f11100101hhiiiiiiiiiiiiiiiiddddd")
def move_quarter(_, f, h, i, d):
    return None if h > 1 and not f else \
        f"movk {general(d, f)}, #0x{i:x}" + (f", lsl #{16 * h}" if h else "")


EXTENDED = {7: "b", 15: "h", 31: "w"}  # by the highest bit that is moved


@reads("f10100110Nrrrrrrssssssnnnnnddddd")
def shift_by_number(_, f, N, r, s, n, d):
    last = 63 if f else 31
    if N != f or r > last or s > last:
        return None
    if s == last:
        return f"lsr {general(d, f)}, {general(n, f)}, #{r}"
    if s + 1 == r:
        return f"lsl {general(d, f)}, {general(n, f)}, #{last - s}"
    if not (f or r) and s in EXTENDED:
        return f"uxt{EXTENDED[s]} {general(d, 0)}, {general(n, 0)}"
    return field("u", f, r, s, n, d)


@reads("f00100110Nrrrrrrssssssnnnnnddddd")
def signed_shift_by_number(_, f, N, r, s, n, d):
    last = 63 if f else 31
    if N != f or r > last or s > last:
        return None
    if s == last:
        return f"asr {general(d, f)}, {general(n, f)}, #{r}"
    if not r and s in EXTENDED:
        return f"sxt{EXTENDED[s]} {general(d, f)}, {general(n, 0)}"
    return field("s", f, r, s, n, d)


def field(kind, f, r, s, n, d):
    """A move of bits s to r to the lowest, or of the s + 1 lowest to above the r lowest."""
    if s >= r:
        return f"{kind}bfx {general(d, f)}, {general(n, f)}, #{r}, #{s - r + 1}"
    return f"{kind}bfiz {general(d, f)}, {general(n, f)}, #{(64 if f else 32) - r}, #{s + 1}"


@reads("f00100111N0mmmmmssssssnnnnnddddd")
def rotate(_, f, N, m, s, n, d):
    if N != f or s > 31 and not f:
        return None
    if m == n:
        return f"ror {general(d, f)}, {general(n, f)}, #{s}"
    return f"extr {general(d, f)}, {general(n, f)}, {general(m, f)}, #{s}"


@reads("f0011010110mmmmm00100onnnnnddddd")
def shift_by_register(_, f, m, o, n, d):
    return f"{('lsl', 'lsr')[o]} {general(d, f)}, {general(n, f)}, {general(m, f)}"


@reads("fos11010000mmmmm000000nnnnnddddd")
def sum_with_carry(_, f, o, s, m, n, d):
    if o and n == 31:
        return None
    name = ("adc", "adcs", "sbc", "sbcs")[2 * o + s]
    return f"{name} {general(d, f)}, {general(n, f)}, {general(m, f)}"


@reads("fo011010100mmmmmcccc0pnnnnnddddd")
def select(_, f, o, m, c, p, n, d):
    name = ("csel", "csinc", "csinv", "csneg")[2 * o + p]
    target, first, second = (general(it, f) for it in (d, n, m))
    if name == "csneg" or name == "csinv" and m == n and c < 14:
        return None
    if name == "csinc" and m == n and c < 14:
        opposite = CONDITIONS[c ^ 1]
        return f"cset {target}, {opposite}" if n == 31 else f"cinc {target}, {first}, {opposite}"
    return f"{name} {target}, {first}, {second}, {CONDITIONS[c]}"


@reads("f01100110Nrrrrrrssssssnnnnnddddd")
def inserted_field(_, f, N, r, s, n, d):
    last = 63 if f else 31
    if N != f or r > last or s > last or n == 31:
        return None
    if s >= r:
        return f"bfxil {general(d, f)}, {general(n, f)}, #{r}, #{s - r + 1}"
    return f"bfi {general(d, f)}, {general(n, f)}, #{last + 1 - r}, #{s + 1}"


@reads("fos01011001mmmmmxxxiiinnnnnddddd")
def sum_with_extended(_, f, o, s, m, x, i, n, d):
    if x not in (0, 1, 2, 4, 5, 6) or i > 4:
        return None
    first, target = general(n, f, "sp"), general(d, f, "zero" if s else "sp")
    how = f"{general(m, 0)}, {'us'[x > 3]}xt{'bhw'[x & 3]}" + (f" #{i}" if i else "")
    if s and d == 31:
        return f"{('cmn', 'cmp')[o]} {first}, {how}"
    return f"{('add', 'adds', 'sub', 'subs')[2 * o + s]} {target}, {first}, {how}"


@reads("f101101011000000000b00nnnnnddddd")
def bits_of_word(_, f, b, n, d):
    return f"{('rbit', 'clz')[b]} {general(d, f)}, {general(n, f)}"


@reads("f0011010110mmmmm000010nnnnnddddd")
def quotient(_, f, m, n, d):
    return f"udiv {general(d, f)}, {general(n, f)}, {general(m, f)}"


@reads("10011011101mmmmm011111nnnnnddddd")
def long_product(_, m, n, d):
    return f"umull {general(d, 1)}, {general(n, 0)}, {general(m, 0)}"


@reads("f10110101100000000001lnnnnnddddd")
def reversed_word(_, f, l, n, d):
    return f"rev {general(d, f)}, {general(n, f)}" if f == l else None


@reads("10011011110mmmmm011111nnnnnddddd")
def upper_product(_, m, n, d):
    return f"umulh {general(d, 1)}, {general(n, 1)}, {general(m, 1)}"


@reads("f0011011000mmmmmoaaaaannnnnddddd")
def product(_, f, m, o, a, n, d):
    target, first, second = (general(it, f) for it in (d, n, m))
    if a == 31:
        return f"{('mul', 'mneg')[o]} {target}, {first}, {second}" if not o else None
    return f"{('madd', 'msub')[o]} {target}, {first}, {second}, {general(a, f)}"


@reads("f1111010010mmmmmccccx0nnnnn0vvvv")
def compare_if(_, f, m, c, x, n, v):
    other = f"#0x{m:x}" if x else general(m, f)
    return f"ccmp {general(n, f)}, {other}, #0x{v:x}, {CONDITIONS[c]}"


# Jumps.

@reads("l00101iiiiiiiiiiiiiiiiiiiiiiiiii")
def jump(at, l, i):
    return f"{('b', 'bl')[l]} {at + 4 * signed(i, 26) & (1 << 64) - 1:x}"


@reads("01010100iiiiiiiiiiiiiiiiiii0cccc")
def jump_if(at, i, c):
    return f"b.{CONDITIONS[c]} {at + 4 * signed(i, 19) & (1 << 64) - 1:x}"


@reads("f011010oiiiiiiiiiiiiiiiiiiittttt")
def jump_if_zero(at, f, o, i, t):
    return f"{('cbz', 'cbnz')[o]} {general(t, f)}, {at + 4 * signed(i, 19) & (1 << 64) - 1:x}"


@reads("h011011obbbbbiiiiiiiiiiiiiittttt")
def jump_by_bit(at, h, o, b, i, t):
    target = at + 4 * signed(i, 14) & (1 << 64) - 1
    return f"{('tbz', 'tbnz')[o]} {general(t, h)}, #{h << 5 | b}, {target:x}"


@reads("1101011000011111000000nnnnn00000")
def jump_to_register(_, n):
    return f"br {general(n, 1)}"


@reads("11010110010111110000001111000000")
def ret(_):
    return "ret"


@reads("11010101000000110010000000011111")
def nop(_):
    return "nop"


@reads("0ll10000iiiiiiiiiiiiiiiiiiiddddd")
def place(at, l, i, d):
    return f"adr {general(d, 1)}, {at + signed(i << 2 | l, 21) & (1 << 64) - 1:x}"


@reads("1ll10000iiiiiiiiiiiiiiiiiiiddddd")
def page(at, l, i, d):
    found = (at & -4096) + (signed(i << 2 | l, 21) << 12)
    return f"adrp {general(d, 1)}, {found & (1 << 64) - 1:x}"


# Loads and stores.

# By the size and whether a vector is moved: the register's letter, how many bytes.
SINGLE = {(0, 0): ("w", 1), (1, 0): ("w", 2), (2, 0): ("w", 4), (3, 0): ("x", 8),
          (2, 1): ("s", 4), (3, 1): ("d", 8)}
PAIRS = {(0, 0): ("w", 4), (2, 0): ("x", 8), (0, 1): ("s", 4), (1, 1): ("d", 8), (2, 1): ("q", 16)}


def single(z, V, o, unscaled=False):
    """The letter of a register that is moved, how many bytes, and the instruction's name."""
    if V and not z and o > 1:
        letter, size = "q", 16
    else:
        letter, size = SINGLE.get((z, V), (None, 0))
        if not letter or o > 1 and V:
            return None
    name = (("str", "ldr"), ("stur", "ldur"))[unscaled][o & 1]
    if o > 1 and not V:  # with the sign above
        letter = "xw"[o & 1]
        if z == 3 or z == 2 and letter == "w":
            return None
        return letter, size, ("ldrs", "ldurs")[unscaled] + "bhw"[z]
    return letter, size, name + {1: "b", 2: "h"}.get(size, "")


def register(letter, number):
    return general(number, letter == "x") if letter in "wx" else f"{letter}{number}"


def based(n, offset):
    return f"[{general(n, 1, 'sp')}" + (f", #{offset}]" if offset else "]")


@reads("zz111V01ooiiiiiiiiiiiinnnnnttttt")
def single_scaled(_, z, V, o, i, n, t):
    if not (of := single(z, V, o)):
        return None
    letter, size, name = of
    return f"{name} {register(letter, t)}, {based(n, size * i)}"


@reads("zz111V00oo0iiiiiiiii00nnnnnttttt")
def single_unscaled(_, z, V, o, i, n, t):
    if not (of := single(z, V, o, True)):
        return None
    return f"{of[2]} {register(of[0], t)}, {based(n, signed(i, 9))}"


@reads("zz111V00oo0iiiiiiiiip1nnnnnttttt")
def single_moving(_, z, V, o, i, p, n, t):
    if not (of := single(z, V, o)):
        return None
    return f"{of[2]} {register(of[0], t)}, {moving(p, n, signed(i, 9))}"


@reads("zz111V00oo1mmmmmp1xS10nnnnnttttt")
def single_indexed(_, z, V, o, m, p, x, S, n, t):
    if p or not (of := single(z, V, o)):
        return None
    letter, size, name = of
    by = size.bit_length() - 1
    how = f", {('uxtw', 'lsl')[x]} #{by}" if S else "" if x else ", uxtw"
    where = f"[{general(n, 1, 'sp')}, {general(m, x)}{how}]"
    return f"{name} {register(letter, t)}, {where}"


def moving(is_before, n, offset):
    """An address of a base that is moved."""
    base = general(n, 1, "sp")
    return f"[{base}, #{offset}]!" if is_before else f"[{base}], #{offset}"


@reads("oo101V0mmLiiiiiiiTTTTTnnnnnttttt")
def pair(_, o, V, m, L, i, T, n, t):
    letter, size = PAIRS.get((o, V), (None, 0))
    if not letter or not m:
        return None
    offset = size * signed(i, 7)
    where = based(n, offset) if m == 2 else moving(m == 3, n, offset)
    return f"{('stp', 'ldp')[L]} {register(letter, t)}, {register(letter, T)}, {where}"


@reads("01001101010000001100zznnnnnttttt")
def load_and_repeat(_, z, n, t):
    return f"ld1r {{{vector(t, 8 << z)}}}, [{general(n, 1, 'sp')}]" if z != 1 else None


@reads("0Q00110101000000100S0znnnnnttttt")
def load_part(_, Q, S, z, n, t):
    if z and S:
        return None
    part, index = ("d", Q) if z else ("s", 2 * Q + S)
    return f"ld1 {{v{t}.{part}}}[{index}], [{general(n, 1, 'sp')}]"


# Vectors.

@reads("0Qu01110zz1mmmmmoooooonnnnnddddd")
def three_vectors(_, Q, u, z, m, o, n, d):
    if not Q and o != 0b000111:
        return None
    if o == 0b010001:
        return f"ushl {', '.join(vector(it, 64) for it in (d, n, m))}" if u and z == 3 else None
    if o == 0b100001:
        name, width = ("add", "sub")[u], 8 << z
        if u or z == 1:
            return None
    elif o == 0b100011 and u or o == 0b101111 and not u:
        name, width = ("addp", "cmeq")[u], 8 << z
    elif o == 0b000111:
        name, width = ("and bic orr orn", "eor bsl bit bif")[u].split()[z], 8
        if name == "bit":
            return None
    else:
        return None
    whole = 128 if Q else 64
    if name == "orr" and m == n:
        return f"mov {vector(d, 8, whole)}, {vector(n, 8, whole)}"
    return f"{name} {', '.join(vector(it, width, whole) for it in (d, n, m))}"


@reads("0110111000100000010110nnnnnddddd")
def inverted_vector(_, n, d):
    return f"mvn {vector(d, 8)}, {vector(n, 8)}"


@reads("01001110zz100000100110nnnnnddddd")
def compared_with_zero(_, z, n, d):
    return f"cmeq {vector(d, 8 << z)}, {vector(n, 8 << z)}, #0"


@reads("01u01110zz11000ooooo10nnnnnddddd")
def over_parts(_, u, z, o, n, d):
    name = {(1, 10): "umaxv", (0, 27): "addv"}.get((u, o))
    return f"{name} {'bhs'[z]}{d}, {vector(n, 8 << z)}" if name and z < 3 else None


@reads("0010111100100000101001nnnnnddddd")
def widened(_, n, d):
    return f"uxtl {vector(d, 64)}, {vector(n, 32, 64)}"


@reads("01u011110hhhhbbbooooo1nnnnnddddd")
def shift_vectors(_, u, h, b, o, n, d):
    name = {(1, 0): "ushr", (1, 2): "usra", (0, 10): "shl"}.get((u, o))
    if not h or not name:
        return None
    width = 8 << h.bit_length() - 1
    by = (h << 3 | b) - width if name == "shl" else 2 * width - (h << 3 | b)
    return f"{name} {vector(d, width)}, {vector(n, width)}, #{by}" if width != 16 else None


@reads("01001110zz0mmmmm0ooo10nnnnnddddd")
def permuted(_, z, m, o, n, d):
    name = {1: "uzp1", 2: "trn1", 3: "zip1", 5: "uzp2", 6: "trn2", 7: "zip2"}.get(o)
    if not name or z == 1:
        return None
    return f"{name} {', '.join(vector(it, 8 << z) for it in (d, n, m))}"


@reads("01101110000mmmmm0iiii0nnnnnddddd")
def extracted(_, m, i, n, d):
    return f"ext {', '.join(vector(it, 8) for it in (d, n, m))}, #{i}"


@reads("0Qu0111000100000000010nnnnnddddd")
def reversed_bytes(_, Q, u, n, d):
    whole = 128 if Q else 64
    return f"{('rev64', 'rev32')[u]} {vector(d, 8, whole)}, {vector(n, 8, whole)}"


def part_of(i):
    """The part of a vector that five bits tell: its width and its number."""
    low = (i & -i).bit_length() - 1
    return (8 << low, i >> low + 1) if low in (0, 2, 3) else (None, None)


@reads("01o01110000iiiii0jjjj1nnnnnddddd")
def moved_part(_, o, i, j, n, d):
    width, index = part_of(i)
    if not width:
        return None
    letter = {8: "b", 32: "s", 64: "d"}[width]
    from_general = general(n, width == 64)
    if not o and j == 1:
        return f"dup {vector(d, width)}, {from_general}"
    if not o and j == 0:
        return f"dup {vector(d, width)}, v{n}.{letter}[{index}]" if width > 8 else None
    if not o and j == 3:
        return f"mov v{d}.{letter}[{index}], {from_general}"
    if not o and j == 7 and width == 64:
        return f"mov {general(d, 1)}, v{n}.d[{index}]"
    if o and not j % (width // 8):
        return f"mov v{d}.{letter}[{index}], v{n}.{letter}[{j // (width // 8)}]"
    return None


@reads("00001110000iiiii001111nnnnnddddd")
def moved_from_part(_, i, n, d):
    width, index = part_of(i)
    if width == 8:
        return f"umov {general(d, 0)}, v{n}.b[{index}]"
    return f"mov {general(d, 0)}, v{n}.s[{index}]" if width == 32 else None


@reads("01011110000iiiii000001nnnnnddddd")
def part_alone(_, i, n, d):
    width, index = part_of(i)
    return f"mov b{d}, v{n}.b[{index}]" if width == 8 else None


@reads("01o0111100000aaacccc01bbbbbddddd")
def moved_number(_, o, a, c, b, d):
    number = a << 5 | b
    if o:
        if c != 14:
            return None
        number = sum(0xff << 8 * i for i in range(8) if number >> i & 1)
        return f"movi {vector(d, 64)}, #0x{number:x}"
    if c == 14:
        return f"movi {vector(d, 8)}, #0x{number:x}"
    if c % 2 or c > 7:
        return None
    return f"movi {vector(d, 32)}, #0x{number:x}" + (f", lsl #{4 * c}" if c else "")


@reads("f00111100t10011o000000nnnnnddddd")
def moved_scalar(_, f, t, o, n, d):
    if f != t:
        return None
    scalar, other = "sd"[t], general(d if not o else n, f)
    return f"fmov {scalar}{d}, {other}" if o else f"fmov {other}, {scalar}{n}"


@reads("000111100t100000010000nnnnnddddd")
def copied_scalar(_, t, n, d):
    return f"fmov {'sd'[t]}{d}, {'sd'[t]}{n}"


@reads("01011110000mmmmm0ooo00nnnnnddddd")
def hashed(_, m, o, n, d):
    if o == 7:
        return None
    name = "sha1c sha1p sha1m sha1su0 sha256h sha256h2 sha256su1".split()[o]
    first = {"1": f"q{d}, s{n}", "2": f"q{d}, q{n}"}[name[3]]
    if "su" in name:
        first = f"{vector(d, 32)}, {vector(n, 32)}"
    return f"{name} {first}, {vector(m, 32)}"


@reads("0101111000101000oooo10nnnnnddddd")
def hashed_two(_, o, n, d):
    if o == 0:
        return f"sha1h s{d}, s{n}"
    name = {1: "sha1su1", 2: "sha256su0"}.get(o)
    return f"{name} {vector(d, 32)}, {vector(n, 32)}" if name else None
