#!/usr/bin/env python3
"""A small independent model of the formats that docs/FORMAT.md describes.

It shares no text with the library and needs nothing but Python 3 and its hashlib. It makes the worked example of
docs/FORMAT.md and the file crates/vectors/data/blocks.txt, and it checks the code vectors that other software made.

    python3 tools/model.py selfcheck            the known values, round trips and refusals
    python3 tools/model.py example              the worked example of docs/FORMAT.md
    python3 tools/model.py lengths              the table of lengths of docs/FORMAT.md
    python3 tools/model.py blocks               the lines of crates/vectors/data/blocks.txt
    python3 tools/model.py codes FILE           compares the lines of crates/vectors/data/codes.txt with this model
"""
import hashlib
import sys
from dataclasses import dataclass
from functools import lru_cache, reduce

HALF_WIDTHS = (1, 2, 4, 8, 16, 32)
SHA256, SHA3_256 = 1, 2
POLYNOMIAL, CAUCHY = 1, 2
ROW, COLUMN = 0, 1


class Refused(Exception):
    """A refusal: its number, and the byte place or the witness's number where it carries one."""

    def __init__(self, number, at=None, witness=None):
        super().__init__(number, at, witness)
        self.number, self.at, self.witness = number, at, witness

    def __eq__(self, other):
        return isinstance(other, Refused) and self.args == other.args

    __hash__ = Exception.__hash__

    def __str__(self):
        where = "" if self.at is None else f" at {self.at}"
        which = "" if self.witness is None else f" witness {self.witness}"
        return f"refused {self.number}{where}{which}"


# ---------------------------------------------------------------- hashes and trees

def hash_message(kind, message):
    return {SHA256: hashlib.sha256, SHA3_256: hashlib.sha3_256}[kind](message).digest()


def digest(kind, lead, left, right=b""):
    if len(left) + len(right) > 4096:
        raise Refused(4)
    return hash_message(kind, bytes([lead]) + left + right)


def leaf(kind, value):
    return digest(kind, 0x00, value)


def node(kind, left, right):
    return digest(kind, 0x01, left, right)


def tree(kind, leaves):
    """The levels of a tree over leaf digests, from the bottom up; the last level is the root alone."""
    levels = [list(leaves)]
    while len(levels[-1]) > 1:
        below = levels[-1]
        levels.append([node(kind, below[i], below[i + 1]) for i in range(0, len(below), 2)])
    return levels


def root(levels):
    return levels[-1][0]


def siblings(levels, place):
    """The path of a place: its siblings from the bottom up."""
    path = []
    for level in levels[:-1]:
        path.append(level[place ^ 1])
        place //= 2
    return path


def climb(kind, at, place, path):
    for sibling in path:
        at = node(kind, at, sibling) if place % 2 == 0 else node(kind, sibling, at)
        place //= 2
    return at


# ---------------------------------------------------------------- field

def product(a, b):
    """Bytes as polynomials over two elements: multiply, then reduce modulo 0x11D."""
    p = 0
    for i in range(8):
        if b >> i & 1:
            p ^= a << i
    for i in range(14, 7, -1):
        if p >> i & 1:
            p ^= 0x11D << (i - 8)
    return p


MUL = [bytes(product(a, b) for b in range(256)) for a in range(256)]
INVERSE = [0] + [MUL[a].index(1) for a in range(1, 256)]


def quotient(a, b):
    return MUL[a][INVERSE[b]]


# ---------------------------------------------------------------- codes

def lagrange(points, x):
    """The factors by which the values of a polynomial at these points make its value at x."""
    factors = []
    for j in points:
        top = bottom = 1
        for m in points:
            if m != j:
                top, bottom = MUL[top][x ^ m], MUL[bottom][j ^ m]
        factors.append(quotient(top, bottom))
    return factors


@lru_cache(maxsize=None)
def table(code, k):
    """The w by k table of a code."""
    if code == POLYNOMIAL:
        return [lagrange(range(k), i) for i in range(2 * k)]
    identity = [[int(i == j) for j in range(k)] for i in range(k)]
    return identity + [[quotient(1, i ^ j) for j in range(k)] for i in range(k, 2 * k)]


def inverted(matrix):
    """The inverse of a square matrix over the field, by elimination."""
    n = len(matrix)
    rows = [list(row) + [int(i == j) for j in range(n)] for i, row in enumerate(matrix)]
    for i in range(n):
        pivot = next(r for r in range(i, n) if rows[r][i])
        rows[i], rows[pivot] = rows[pivot], rows[i]
        scale = INVERSE[rows[i][i]]
        rows[i] = [MUL[scale][x] for x in rows[i]]
        for r in range(n):
            if r != i and rows[r][i]:
                f = rows[r][i]
                rows[r] = [x ^ MUL[f][y] for x, y in zip(rows[r], rows[i])]
    return [row[n:] for row in rows]


@lru_cache(maxsize=None)
def weights(code, k, places):
    """The w by k factors by which the symbols at k places make the whole codeword."""
    back = inverted([table(code, k)[p] for p in places])
    return [[reduce(lambda x, y: x ^ y, (MUL[row[m]][back[m][j]] for m in range(k))) for j in range(k)]
            for row in table(code, k)]


def apply(factors, shares):
    word = []
    for row in factors:
        total = 0
        for factor, share in zip(row, shares):
            total ^= int.from_bytes(share.translate(MUL[factor]), "little")
        word.append(total.to_bytes(len(shares[0]), "little"))
    return word


def encode(code, k, shares):
    return apply(table(code, k), shares)


def recover(code, k, places, shares):
    return apply(weights(code, k, tuple(places)), shares)


# ---------------------------------------------------------------- numbers that follow from k and s

def width(k):
    return 2 * k


def depth(k):
    return width(k).bit_length() - 1


def path_length(k):
    return 32 * (2 * depth(k) + 1)


def body_length(kind, k, s):
    return {0x0001: 38,
            0x0002: 128 * k,
            0x0003: 3,
            0x0004: 2 + s + path_length(k),
            0x0005: 0,
            0x0010: 35 + 32 * (depth(k) + 1),
            0x0011: 3 + s + path_length(k)}[kind]


def proof_length(k, s):
    d = depth(k)
    return 41 + 32 * (d + 1) + k * (9 + s + 32 * (2 * d + 1))


def image_length(k, s):
    w = width(k)
    return w * w * s + 32 * (w * (2 * w - 1) + 4 * w - 1)


def full_file_length(k, s):
    """A block file with a row group for each row and every cell in it."""
    w = width(k)
    return 44 + 6 + 128 * k + 15 * w + w * w * (8 + s + path_length(k))


# ---------------------------------------------------------------- square, header, evidence

@dataclass(frozen=True)
class Header:
    k: int
    s: int
    hash_kind: int
    code_kind: int
    data_root: bytes


def shares_of(data, s):
    return [data[i:i + s] for i in range(0, len(data), s)]


def line(square, axis, index):
    return list(square[index]) if axis == ROW else [row[index] for row in square]


def extension(code, k, data):
    """The extended square, as rows of shares, of k rows of k shares."""
    top = [encode(code, k, row) for row in data]
    columns = [encode(code, k, [row[c] for row in top]) for c in range(width(k))]
    return [[columns[c][r] for c in range(width(k))] for r in range(width(k))]


def axis_tree(kind, shares):
    return tree(kind, [leaf(kind, share) for share in shares])


def roots_of(kind, square):
    w = len(square)
    return [root(axis_tree(kind, line(square, axis, i))) for axis in (ROW, COLUMN) for i in range(w)]


def data_tree(kind, roots):
    return tree(kind, [leaf(kind, value) for value in roots])


def commit(hash_kind, code_kind, k, s, square):
    """Roots and header of any square, extended or not."""
    roots = roots_of(hash_kind, square)
    return roots, Header(k, s, hash_kind, code_kind, root(data_tree(hash_kind, roots)))


def cell_on(axis, index, place):
    return (index, place) if axis == ROW else (place, index)


def places_of(k, cell, axis):
    """Where a cell climbs from, by an axis: its place in the axis tree, and the axis's place in the data tree."""
    r, c = cell
    return (c, r) if axis == ROW else (r, width(k) + c)


def evidence_of(header, square, roots, cell, axis):
    r, c = cell
    place, leaf_place = places_of(header.k, cell, axis)
    shares = line(square, axis, r if axis == ROW else c)
    path = siblings(axis_tree(header.hash_kind, shares), place)
    path += siblings(data_tree(header.hash_kind, roots), leaf_place)
    return axis, square[r][c], b"".join(path)


def verifies(header, cell, axis, share, path):
    k, d, kind = header.k, depth(header.k), header.hash_kind
    if max(cell) >= width(k) or axis not in (ROW, COLUMN) or len(share) != header.s or len(path) != path_length(k):
        return False
    path = shares_of(path, 32)
    place, leaf_place = places_of(k, cell, axis)
    axis_root = climb(kind, leaf(kind, share), place, path[:d])
    return climb(kind, leaf(kind, axis_root), leaf_place, path[d:]) == header.data_root


def image(header, square):
    kind = header.hash_kind
    trees = [axis_tree(kind, row) for row in square] + [data_tree(kind, roots_of(kind, square))]
    return b"".join(map(b"".join, square)) + b"".join(n for levels in trees for level in levels for n in level)


# ---------------------------------------------------------------- records, block file, proof

def number(value, size):
    return value.to_bytes(size, "little")


def record(kind, *parts):
    body = b"".join(parts)
    return number(len(body), 4) + number(kind, 2) + body


def header_record(h):
    return record(0x0001, number(h.k, 2), number(h.s, 2), bytes([h.hash_kind, h.code_kind]), h.data_root)


def roots_record(roots):
    return record(0x0002, *roots)


def group_record(axis, index):
    return record(0x0003, number(axis, 1), number(index, 2))


def share_record(place, share, path):
    return record(0x0004, number(place, 2), share, path)


def end_record():
    return record(0x0005)


def claim_record(axis, index, axis_root, path):
    return record(0x0010, number(axis, 1), number(index, 2), axis_root, path)


def witness_record(place, axis, share, path):
    return record(0x0011, number(place, 2), number(axis, 1), share, path)


def little(data):
    return int.from_bytes(data, "little")


def read_record(data, at, due, header):
    """The record at a byte place, where the kinds in `due` may stand: its kind, its body and where the next begins."""
    if at == len(data):
        raise Refused(10, at)
    if len(data) - at < 6:
        raise Refused(7, at)
    length, kind = little(data[at:at + 4]), little(data[at + 4:at + 6])
    body = data[at + 6:at + 6 + length]
    if len(body) < length:
        raise Refused(7, at)
    if kind not in (1, 2, 3, 4, 5, 0x10, 0x11):
        raise Refused(8, at)
    if kind not in due:
        raise Refused(10, at)
    k, s = (header.k, header.s) if header else (1, 1)
    if length != body_length(kind, k, s):
        raise Refused(9, at)
    w = width(k)
    sound = {0x0001: lambda: little(body[0:2]) in HALF_WIDTHS and 1 <= little(body[2:4]) <= 512,
             0x0003: lambda: body[0] <= 1 and little(body[1:3]) < w,
             0x0004: lambda: little(body[0:2]) < w,
             0x0010: lambda: body[0] <= 1 and little(body[1:3]) < w,
             0x0011: lambda: little(body[0:2]) < w and body[2] <= 1}.get(kind, lambda: True)
    if not sound():
        raise Refused(11, at)
    return kind, body, at + 6 + length


def open_file(data):
    """Header, roots and, for each cell that the file has, its evidence."""
    if len(data) > 4194304:
        raise Refused(6)
    _, body, at = read_record(data, 0, {0x0001}, None)
    header = Header(little(body[0:2]), little(body[2:4]), body[4], body[5], body[6:])
    _, body, at = read_record(data, at, {0x0002}, header)
    roots, cells = shares_of(body, 32), {}
    while at < len(data):
        _, body, at = read_record(data, at, {0x0003}, header)
        axis, index = body[0], little(body[1:3])
        while True:
            here = at
            kind, body, at = read_record(data, at, {0x0004, 0x0005}, header)
            if kind == 0x0005:
                break
            cell = cell_on(axis, index, little(body[0:2]))
            if cell in cells:
                raise Refused(12, here)
            cells[cell] = (axis, body[2:2 + header.s], body[2 + header.s:])
    return header, roots, cells


def file_by_rows(header, square, roots):
    parts = [header_record(header), roots_record(roots)]
    for r, row in enumerate(square):
        parts.append(group_record(ROW, r))
        for c, share in enumerate(row):
            parts.append(share_record(c, share, evidence_of(header, square, roots, (r, c), ROW)[2]))
        parts.append(end_record())
    return b"".join(parts)


def make_proof(header, square, roots, axis, index, witnesses):
    """A proof against one axis; `witnesses` is a list of places with the axis that proves each."""
    leaf_place = index if axis == ROW else width(header.k) + index
    path = b"".join(siblings(data_tree(header.hash_kind, roots), leaf_place))
    parts = [claim_record(axis, index, roots[leaf_place], path)]
    for place, proving in witnesses:
        _, share, evidence = evidence_of(header, square, roots, cell_on(axis, index, place), proving)
        parts.append(witness_record(place, proving, share, evidence))
    return b"".join(parts)


def check_proof(header, data, hash_kind, code_kind):
    """Returns where the proof is accepted, and raises its refusal elsewhere."""
    if header.hash_kind != hash_kind:
        raise Refused(13)
    if header.code_kind != code_kind:
        raise Refused(14)
    k, s = header.k, header.s
    _, claim, at = read_record(data, 0, {0x0010}, header)
    witnesses = []
    for _ in range(k):
        _, body, at = read_record(data, at, {0x0011}, header)
        witnesses.append((little(body[0:2]), body[2], body[3:3 + s], body[3 + s:]))
    if at < len(data):
        read_record(data, at, set(), header)
    axis, index, claimed = claim[0], little(claim[1:3]), claim[3:35]
    leaf_place = index if axis == ROW else width(k) + index
    if climb(hash_kind, leaf(hash_kind, claimed), leaf_place, shares_of(claim[35:], 32)) != header.data_root:
        raise Refused(18)
    places = [place for place, _, _, _ in witnesses]
    if any(a >= b for a, b in zip(places, places[1:])):
        raise Refused(19)
    for i, (place, proving, share, path) in enumerate(witnesses):
        if not verifies(header, cell_on(axis, index, place), proving, share, path):
            raise Refused(20, witness=i)
    word = recover(code_kind, k, places, [share for _, _, share, _ in witnesses])
    if root(axis_tree(hash_kind, word)) == claimed:
        raise Refused(21)


# ---------------------------------------------------------------- stopping sets

def largest_stopping_set(k, missing):
    """What is left of a set of cells when lines with at least k cells outside it are taken away until none is left."""
    left = set(missing)
    while True:
        short = [(axis, i) for axis in (ROW, COLUMN) for i in range(width(k))
                 if 0 < sum(cell[axis] == i for cell in left) <= k]
        if not short:
            return left
        left -= {cell for cell in left for axis, i in short if cell[axis] == i}


# ---------------------------------------------------------------- the worked example

def small_block():
    square = extension(POLYNOMIAL, 2, [[b"\1", b"\2"], [b"\3", b"\4"]])
    roots, header = commit(SHA256, POLYNOMIAL, 2, 1, square)
    return square, roots, header


def bad_block():
    """The same square with cell (1, 2) changed from 13 to 0 before the roots are taken."""
    square = [list(row) for row in small_block()[0]]
    square[1][2] = b"\0"
    roots, header = commit(SHA256, POLYNOMIAL, 2, 1, square)
    return square, roots, header


def digests(data):
    return [d.hex() for d in shares_of(data, 32)]


def walk(data):
    """Each record of some well-formed bytes: byte place, kind, body."""
    at = 0
    while at < len(data):
        length, kind = little(data[at:at + 4]), little(data[at + 4:at + 6])
        yield at, kind, data[at + 6:at + 6 + length]
        at += 6 + length


def print_square(square):
    for row in square:
        print("  " + " ".join(f"{share[0]:3d}" for share in row))


def print_roots(roots, w):
    for axis, name in ((ROW, "row"), (COLUMN, "column")):
        for i in range(w):
            print(f"  {name} {i}: {roots[axis * w + i].hex()}")


def print_cut(rows):
    """Rows of (byte place, hex, meaning)."""
    for at, text, meaning in rows:
        print(f"  {at:4d}  {text}  {meaning}")


def print_share_record(data, first):
    names = ["axis tree, level 0", "axis tree, level 1", "data tree, level 0", "data tree, level 1", "data tree, level 2"]
    print_cut([(first, data[0:4].hex(), "length of the body, 163"),
               (first + 4, data[4:6].hex(), "kind 0x0004, share"),
               (first + 6, data[6:8].hex(), "place"),
               (first + 8, data[8:9].hex(), "share")]
              + [(first + 9 + 32 * i, d, "sibling, " + names[i]) for i, d in enumerate(digests(data[9:]))])


def example():
    square, roots, header = small_block()
    w = 4
    print("extended square")
    print_square(square)
    print("leaf digests of the shares")
    for value in sorted({share[0] for row in square for share in row}):
        print(f"  {value:2d}: {leaf(SHA256, bytes([value])).hex()}")
    print("tree of row 0")
    for i, level in enumerate(axis_tree(SHA256, square[0])):
        for n in level:
            print(f"  level {i}: {n.hex()}")
    print("roots")
    print_roots(roots, w)
    print("data tree")
    for i, level in enumerate(data_tree(SHA256, roots)):
        for j, n in enumerate(level):
            print(f"  level {i}, {j}: {n.hex()}")
    print("header record")
    h = header_record(header)
    print_cut([(0, h[0:4].hex(), "length of the body, 38"), (4, h[4:6].hex(), "kind 0x0001, header"),
               (6, h[6:8].hex(), "k = 2"), (8, h[8:10].hex(), "s = 1"), (10, h[10:11].hex(), "hash kind 1, SHA-256"),
               (11, h[11:12].hex(), "code kind 1, polynomial"), (12, h[12:].hex(), "data root")])
    print("whole:", h.hex())
    file = file_by_rows(header, square, roots)
    print("block file", len(file), "bytes, sha256", hashlib.sha256(file).hexdigest())
    for at, kind, body in walk(file):
        print(f"  {at:4d}  kind 0x{kind:04x}  body {len(body):3d}  {(file[at:at + 9].hex())}")
    axis, share, path = evidence_of(header, square, roots, (1, 2), ROW)
    at = file.index(share_record(2, share, path))
    print("share record of cell (1, 2) by row 1, at byte", at)
    print_share_record(share_record(2, share, path), at)
    print("whole:", share_record(2, share, path).hex())
    print("its climb")
    at, place, steps = leaf(SHA256, share), 2, shares_of(path, 32)
    print("  leaf        ", at.hex())
    for sibling in steps[:2]:
        at, place = climb(SHA256, at, place, [sibling]), place // 2
        print("  axis node   ", at.hex())
    at, place = leaf(SHA256, at), 1
    print("  data leaf   ", at.hex())
    for sibling in steps[2:]:
        at, place = climb(SHA256, at, place, [sibling]), place // 2
        print("  data node   ", at.hex())
    print("the same cell by column 2: place 1 in the column, leaf 4 + 2 = 6 of the data tree")
    for d in digests(evidence_of(header, square, roots, (1, 2), COLUMN)[2]):
        print("  sibling ", d)
    picture = image(header, square)
    print("image", len(picture), "bytes, sha256", hashlib.sha256(picture).hexdigest())
    print("  square", picture[:16].hex())
    for r in range(w):
        print(f"  row {r}'s tree at {16 + 224 * r}, its root at {16 + 224 * r + 192}")
    print("  data tree at", 16 + 896, "data root at", 16 + 896 + 32 * 14)

    square, roots, header = bad_block()
    print("bad square")
    print_square(square)
    print("its roots")
    print_roots(roots, w)
    print("its data root", header.data_root.hex())
    print("its header record", header_record(header).hex())
    proof = make_proof(header, square, roots, ROW, 1, [(0, ROW), (1, ROW)])
    check_proof(header, proof, SHA256, POLYNOMIAL)
    word = recover(POLYNOMIAL, 2, (0, 1), square[1][:2])
    print("codeword through the witnesses", [x[0] for x in word], "root", root(axis_tree(SHA256, word)).hex())
    print("proof", len(proof), "bytes, sha256", hashlib.sha256(proof).hexdigest())
    for at, kind, body in walk(proof):
        print(f"  {at:4d}  kind 0x{kind:04x}  body {len(body)}")
        if kind == 0x10:
            print_cut([(at, proof[at:at + 6].hex(), "head"), (at + 6, body[0:1].hex(), "axis"), (at + 7, body[1:3].hex(), "index"),
                       (at + 9, body[3:35].hex(), "claimed root")]
                      + [(at + 41 + 32 * i, d, "sibling") for i, d in enumerate(digests(body[35:]))])
        else:
            print_cut([(at, proof[at:at + 6].hex(), "head"), (at + 6, body[0:2].hex(), "place"), (at + 8, body[2:3].hex(), "proving axis"),
                       (at + 9, body[3:4].hex(), "share")]
                      + [(at + 10 + 32 * i, d, "sibling") for i, d in enumerate(digests(body[4:]))])
    print("whole:", proof.hex())


def lengths():
    print("| k | w | d | cells | data | square | roots | path | image | share record | witness record | claim record | proof | full block file |")
    print("|--:|--:|--:|--:|--:|--:|--:|--:|--:|--:|--:|--:|--:|--:|")

    def term(f, n):
        return f"{n}s + {f:,}" if f else f"{n}s"
    for k in HALF_WIDTHS:
        w, d = width(k), depth(k)
        fixed = {n: f(k, 0) for n, f in (("image", image_length), ("proof", proof_length), ("file", full_file_length))}
        cells = [k, w, d, f"{w * w:,}", term(0, f"{k * k:,}" if k > 1 else ""), term(0, f"{w * w:,}"), f"{128 * k:,}", path_length(k),
                 term(fixed["image"], f"{w * w:,}"), f"s + {8 + path_length(k)}", f"s + {9 + path_length(k)}", 41 + 32 * (d + 1),
                 term(fixed["proof"], k if k > 1 else ""), term(fixed["file"], f"{w * w:,}")]
        print("| " + " | ".join(map(str, cells)) + " |")
    for k, s in ((1, 1), (2, 1), (32, 1), (32, 512)):
        print(k, s, "image", image_length(k, s), "proof", proof_length(k, s), "file", full_file_length(k, s))


# ---------------------------------------------------------------- vectors

def block_data(k, s):
    """The data of crates/vectors/data/blocks.txt."""
    return bytes((17 * i + 5 * k + 3 * s + 1) % 253 for i in range(k * k * s))


def blocks():
    print("# block HASH CODE K S DATAROOT SHA256-OF-ROOTS, and for k of 1 and 2: roots HASH CODE K S ROOTS")
    for k in (1, 2, 4, 8, 32):
        for s in (1, 512) if k == 32 else (1, 2, 5, 64, 512):
            shares = shares_of(block_data(k, s), s)
            data = [shares[k * r:k * r + k] for r in range(k)]
            for code in (POLYNOMIAL, CAUCHY):
                square = extension(code, k, data)
                for kind in (SHA256, SHA3_256):
                    roots, header = commit(kind, code, k, s, square)
                    whole = b"".join(roots)
                    print("block", kind, code, k, s, header.data_root.hex(), hashlib.sha256(whole).hexdigest())
                    if k <= 2:
                        print("roots", kind, code, k, s, whole.hex())


def code_data(k, s):
    """The data of the lines of crates/vectors/data/codes.txt that are not a unit table; the C and Go programs have the same rule."""
    x, out = 1000 * k + s, []
    for _ in range(k * s):
        x = (1103515245 * x + 12345) % 2147483648
        out.append(x >> 16 & 255)
    return bytes(out)


def compare_codes(name):
    """Every line of a code vector file against this model: the data by its rule, and the whole codeword."""
    seen = set()
    for text in open(name):
        if text.startswith("#") or not text.strip():
            continue
        word, code, k, s, data, coded = text.split()
        code, k, s, data = int(code), int(k), int(s), bytes.fromhex(data)
        assert word == "encode" and len(data) == k * s
        unit = bytes(int(i == j) for i in range(k) for j in range(k))
        assert data == code_data(k, s) or (s == k and data == unit), text
        assert coded == b"".join(encode(code, k, shares_of(data, s))).hex(), text
        assert coded.startswith(data.hex())
        seen.add((code, k, s, data == unit))
    for code in (POLYNOMIAL, CAUCHY):
        for k in HALF_WIDTHS:
            assert (code, k, 3, False) in seen and (code, k, k, True) in seen
        assert (code, 2, 64, False) in seen
    print(f"{len(seen)} code lines agree")


# ---------------------------------------------------------------- self-check

def refusal(call, *arguments):
    try:
        call(*arguments)
    except Refused as refused:
        return str(refused)
    return "accepted"


def numbers(text):
    return [bytes([int(x)]) for x in text.split()]


def selfcheck():
    # field
    assert quotient(1, 2) == 142 and quotient(1, 3) == 244
    assert INVERSE[0] == 0 and all(quotient(a, 0) == 0 for a in range(256))
    assert all(product(a, INVERSE[a]) == 1 for a in range(1, 256))

    # codes
    assert encode(POLYNOMIAL, 2, numbers("1 2")) == numbers("1 2 7 4")
    assert encode(CAUCHY, 2, numbers("1 2")) == numbers("1 2 123 245")
    assert recover(POLYNOMIAL, 2, (2, 3), numbers("7 4")) == numbers("1 2 7 4")
    for k in HALF_WIDTHS:
        picks = [tuple(range(k)), tuple(range(k, 2 * k)), tuple(range(0, 2 * k, 2)), tuple(range(1, 2 * k, 2))]
        for code in (POLYNOMIAL, CAUCHY):
            data = shares_of(code_data(k, 3), 3)
            word = encode(code, k, data)
            assert word[:k] == data and len(word) == 2 * k
            for places in picks:
                assert recover(code, k, places, [word[p] for p in places]) == word
        for places in picks:
            assert weights(POLYNOMIAL, k, places) == [lagrange(places, i) for i in range(2 * k)]
    for code in (POLYNOMIAL, CAUCHY):
        assert encode(code, 1, [b"abc"]) == [b"abc", b"abc"]

    # the small square
    square, roots, header = small_block()
    assert square == [numbers(t) for t in ("1 2 7 4", "3 4 13 10", "5 14 19 24", "7 8 25 22")]
    by_columns = [encode(POLYNOMIAL, 2, [square[0][c], square[1][c]]) for c in range(2)]
    assert [encode(POLYNOMIAL, 2, [by_columns[0][r], by_columns[1][r]]) for r in range(4)] == square

    # lengths
    assert proof_length(2, 1) == 477
    assert image_length(2, 1) == 1392 and len(image(header, square)) == 1392
    assert image(header, square)[-32:] == header.data_root
    assert len(file_by_rows(header, square, roots)) == full_file_length(2, 1) == 3070
    assert full_file_length(32, 512) == 3838962 < 4194304
    assert len(header_record(header)) == 44

    # evidence: every cell by either axis, and not at another cell where the shares there differ
    for kind in (SHA256, SHA3_256):
        for k in (1, 2, 4):
            for code in (POLYNOMIAL, CAUCHY):
                shares = shares_of(code_data(k, 5 * k), 5)
                big = extension(code, k, [shares[k * r:k * r + k] for r in range(k)])
                big_roots, h = commit(kind, code, k, 5, big)
                assert len(image(h, big)) == image_length(k, 5)
                for r in range(2 * k):
                    for c in range(2 * k):
                        for axis in (ROW, COLUMN):
                            e = evidence_of(h, big, big_roots, (r, c), axis)
                            assert verifies(h, (r, c), *e)
                            assert k == 1 or not verifies(h, (r ^ 1, c), *e)
                            assert k == 1 or not verifies(h, (r, c ^ 1), *e)
                            assert k == 1 or not verifies(h, (r, c), 1 - axis, e[1], e[2])

    # records: a block file is read back as what was written
    file = file_by_rows(header, square, roots)
    h, rs, cells = open_file(file)
    assert (h, rs) == (header, roots) and len(cells) == 16
    assert all(cells[r, c] == evidence_of(header, square, roots, (r, c), ROW) for r in range(4) for c in range(4))
    assert refusal(open_file, b"") == "refused 10 at 0"
    assert refusal(open_file, file[:43]) == "refused 7 at 0"
    assert refusal(open_file, file[:44]) == "refused 10 at 44"
    assert refusal(open_file, file[:306]) == "accepted"
    assert refusal(open_file, file[:-6]) == "refused 10 at 3064"
    assert refusal(open_file, file + b"\0") == "refused 7 at 3070"
    assert refusal(open_file, file + bytes(6)) == "refused 8 at 3070"
    assert refusal(open_file, file + end_record()) == "refused 10 at 3070"
    assert refusal(open_file, file + group_record(0, 4)) == "refused 11 at 3070"
    assert refusal(open_file, file + record(3, b"\0\0")) == "refused 9 at 3070"
    assert refusal(open_file, file + group_record(0, 0) + group_record(0, 1)) == "refused 10 at 3079"
    again = evidence_of(header, square, roots, (1, 2), COLUMN)
    assert refusal(open_file, file + group_record(1, 2) + share_record(1, *again[1:])) == "refused 12 at 3079"
    assert refusal(open_file, bytes(4194305)) == "refused 6"
    for k, s in ((3, 1), (2, 0), (2, 513)):
        assert refusal(open_file, header_record(Header(k, s, 1, 1, bytes(32)))) == "refused 11 at 0"
    assert open_file(header_record(Header(32, 512, 99, 98, bytes(32))) + record(2, bytes(4096)))[0].hash_kind == 99

    # proofs
    square, roots, header = bad_block()
    proof = make_proof(header, square, roots, ROW, 1, [(0, ROW), (1, ROW)])
    assert len(proof) == 477 and [at for at, _, _ in walk(proof)] == [0, 137, 307]

    def check(data, hash_kind=SHA256, code_kind=POLYNOMIAL, h=header):
        return refusal(check_proof, h, data, hash_kind, code_kind)
    assert check(proof) == "accepted"
    assert check(make_proof(header, square, roots, ROW, 1, [(1, COLUMN), (3, ROW)])) == "accepted"
    assert check(make_proof(header, square, roots, COLUMN, 2, [(0, ROW), (1, COLUMN)])) == "accepted"
    assert check(proof, hash_kind=SHA3_256) == "refused 13" and check(proof, code_kind=CAUCHY) == "refused 14"
    assert check(proof[:-1]) == "refused 7 at 307" and check(proof[:307]) == "refused 10 at 307"
    assert check(proof + proof[137:307]) == "refused 10 at 477" and check(proof + bytes(6)) == "refused 8 at 477"
    assert check(proof + b"\0") == "refused 7 at 477" and check(b"") == "refused 10 at 0"
    assert check(proof[:7] + b"\0" + proof[8:]) == "refused 18"
    assert check(proof[:137] + proof[307:] + proof[137:307]) == "refused 19"
    assert check(proof[:307] + proof[137:307]) == "refused 19"
    assert check(proof[:316] + b"\7" + proof[317:]) == "refused 20 witness 1"
    assert check(proof[:145] + b"\1" + proof[146:]) == "refused 20 witness 0"
    assert check(make_proof(header, square, roots, ROW, 0, [(0, ROW), (1, ROW)])) == "refused 21"
    assert check(proof, h=small_block()[2]) == "refused 18"

    # stopping sets
    corner = {(r, c) for r in range(3) for c in range(3)}
    assert largest_stopping_set(2, corner) == corner and len(corner) == 9
    assert largest_stopping_set(2, corner - {(2, 2)}) == set()
    assert largest_stopping_set(2, corner | {(3, 3)}) == corner
    assert len(largest_stopping_set(2, {(r, c) for r in range(4) for c in range(4)})) == 16
    print("the model agrees with the known values")


def main():
    calls = {"selfcheck": selfcheck, "example": example, "lengths": lengths, "blocks": blocks}
    if len(sys.argv) == 2 and sys.argv[1] in calls:
        calls[sys.argv[1]]()
    elif len(sys.argv) == 3 and sys.argv[1] == "codes":
        compare_codes(sys.argv[2])
    else:
        sys.exit(__doc__)


if __name__ == "__main__":
    main()
