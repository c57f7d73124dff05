#!/usr/bin/env python3
"""An independent model of the voyage, written from docs/CIPHER.md, docs/IMAGES.md, docs/MEMORY.md and
docs/REFUSALS.md. It shares no code with the crates.

    model.py vectors FILE    compares its own states and sealed words with the output of the program vectors
    model.py voyage          writes the expected output of the program voyage
    model.py stamp           writes the expected output of the program stamp
    model.py console         writes the expected output of the program console for the bytes of its standard input
    model.py session         writes a standard input for the program console that meets every refusal that it can meet
"""
import sys

# ---- ChiLow, by the published algorithm

def bits_of(x, n):
    return [(x >> i) & 1 for i in range(n)]

def number_of(bits):
    return sum(b << i for i, b in enumerate(bits))

def chichi(state, n):
    x, m, y = bits_of(state, n), n // 2, [0] * n
    for i in range(n):
        if i < m - 3:
            y[i] = x[i] ^ ((1 - x[i + 1]) & x[i + 2])
        elif i == m - 3:
            y[i] = x[m] ^ ((1 - x[m - 2]) & x[0])
        elif i == m - 2:
            y[i] = x[m - 1] ^ ((1 - x[0]) & x[1])
        elif i == m - 1:
            y[i] = (1 - x[m - 3]) ^ ((1 - x[m]) & (1 - x[m + 1]))
        elif i == m:
            y[i] = x[m - 2] ^ ((1 - x[m + 1]) & x[m + 2])
        elif i <= n - 3:
            y[i] = x[i] ^ ((1 - x[i + 1]) & x[i + 2])
        elif i == n - 2:
            y[i] = x[n - 2] ^ ((1 - x[n - 1]) & x[m - 1])
        else:
            y[i] = x[n - 1] ^ ((1 - x[m - 1]) & x[m])
    return number_of(y)

# name: (width, alpha, betas)
MAPS = {
    "data32": (32, 11, (5, 9, 12)),
    "tag": (32, 11, (1, 26, 30)),
    "data40": (40, 17, (1, 9, 30)),
    "tweak": (64, 3, (1, 26, 50)),
    "key": (128, 17, (7, 11, 14)),
}

def linear(name, state):
    n, alpha, betas = MAPS[name]
    x = bits_of(state, n)
    return number_of([x[(alpha * i + betas[0]) % n] ^ x[(alpha * i + betas[1]) % n] ^ x[(alpha * i + betas[2]) % n]
                      for i in range(n)])

class Path:
    def __init__(self, width, name, white, takes):
        self.width, self.name, self.white, self.takes = width, name, white, takes

    def part(self, value, low):
        return (value >> low) & ((1 << self.width) - 1)

DATA32 = Path(32, "data32", 64, 0)
TAG32 = Path(32, "tag", 96, 32)
DATA40 = Path(40, "data40", 64, 0)
TAGGED, BLOCK = 0, 1
LOW64 = (1 << 64) - 1

def trace(mode, paths, key, tweak, start):
    """All states: the input, after the whitening, after each round: ([data of each path], T, K)."""
    K, T, X = key, tweak, [start for _ in paths]
    rows = [(list(X), T, K)]
    X = [x ^ p.part(K, p.white) for x, p in zip(X, paths)]
    T ^= K & LOW64
    rows.append((list(X), T, K))
    for i in range(7):
        c = i ^ (1 << (i + 4))
        if mode == BLOCK:
            c ^= 1 << 31
        K ^= c << 96
        X = [chichi(x, p.width) for x, p in zip(X, paths)]
        T, K = chichi(T, 64), chichi(K, 128)
        X = [linear(p.name, x) for x, p in zip(X, paths)]
        T, K = linear("tweak", T), linear("key", K)
        X = [x ^ p.part(T, p.takes) for x, p in zip(X, paths)]
        T ^= K & LOW64
        rows.append((list(X), T, K))
    X = [chichi(x, p.width) for x, p in zip(X, paths)]
    T = linear("tweak", T)
    X = [x ^ p.part(T, p.takes) for x, p in zip(X, paths)]
    rows.append((list(X), T, K))
    return rows

def paths_of(mode):
    return [DATA32, TAG32] if mode == TAGGED else [DATA40]

def decrypt(mode, tau, key, tweak, stored):
    """The instruction of a stored number, or None where it is rejected."""
    if stored >= 1 << (32 + tau):
        return None
    if mode == TAGGED:
        (x, tag), _, _ = trace(mode, paths_of(mode), key, tweak, stored >> tau)[-1]
        return x if (tag & ((1 << tau) - 1)) == (stored & ((1 << tau) - 1)) else None
    (x,), _, _ = trace(mode, paths_of(mode), key, tweak, stored)[-1]
    return x if x >> 32 == 0 else None

# ---- encryption: the linear maps by elimination, ChiChi by a search bit by bit

def invert_matrix(rows, n):
    """rows[i]: the mask of the input bits that make output bit i. Gives the rows of the inverse."""
    work = [(rows[i], 1 << i) for i in range(n)]
    for col in range(n):
        at = next(r for r in range(col, n) if work[r][0] >> col & 1)
        work[col], work[at] = work[at], work[col]
        for r in range(n):
            if r != col and work[r][0] >> col & 1:
                work[r] = (work[r][0] ^ work[col][0], work[r][1] ^ work[col][1])
    return [w[1] for w in work]

INVERSES = {}

def unlinear(name, state):
    n = MAPS[name][0]
    if name not in INVERSES:
        images = [linear(name, 1 << j) for j in range(n)]
        rows = [sum(((images[j] >> i) & 1) << j for j in range(n)) for i in range(n)]
        INVERSES[name] = invert_matrix(rows, n)
    return number_of([bin(row & state).count("1") & 1 for row in INVERSES[name]])

def output_bit(i, n, x):
    """Output bit i of ChiChi from a partial assignment x (None: unknown), or None where it is not determined."""
    m = n // 2
    flip = 0
    if i == m - 3:
        a, b, c, neg = m, m - 2, 0, 0
    elif i == m - 2:
        a, b, c, neg = m - 1, 0, 1, 0
    elif i == m - 1:
        a, b, c, neg, flip = m - 3, m, m + 1, 1, 1
    elif i == m:
        a, b, c, neg = m - 2, m + 1, m + 2, 0
    elif i == n - 2:
        a, b, c, neg = n - 2, n - 1, m - 1, 0
    elif i == n - 1:
        a, b, c, neg = n - 1, m - 1, m, 0
    else:
        a, b, c, neg = i, i + 1, i + 2, 0
    if x[a] is None:
        return None
    q = None if x[c] is None else x[c] ^ neg
    if x[b] == 1 or q == 0:
        product = 0
    elif x[b] == 0 and q is not None:
        product = q
    else:
        return None
    return x[a] ^ flip ^ product

def unchichi(state, n):
    """The one preimage, by backtracking over bits from the top of each half down, pruned by what is determined."""
    y, m = bits_of(state, n), n // 2
    order = [m - 1, m, m + 1] + list(range(n - 1, m + 1, -1)) + [0, 1] + list(range(m - 2, 1, -1))
    assert sorted(order) == list(range(n))
    found = []

    def consistent(x):
        return all(output_bit(i, n, x) in (None, y[i]) for i in range(n))

    def go(k, x):
        if k == n:
            found.append(number_of(x))
            return
        for v in (0, 1):
            x[order[k]] = v
            if consistent(x):
                go(k + 1, x)
            x[order[k]] = None

    go(0, [None] * n)
    assert len(found) == 1 and chichi(found[0], n) == state
    return found[0]

def undo(path, key, masks, block):
    """Runs a data path backwards over the masks (the tweak state after step 3 of each round)."""
    x = block ^ path.part(masks[7], path.takes)
    x = unchichi(x, path.width)
    for i in range(6, -1, -1):
        x ^= path.part(masks[i], path.takes)
        x = unlinear(path.name, x)
        x = unchichi(x, path.width)
    return x ^ path.part(key, path.white)

def masks_of(mode, key, tweak):
    """T after step 3 of each round."""
    rows = trace(mode, paths_of(mode), key, tweak, 0)
    masks = []
    for i in range(7):
        _, T, K = rows[i + 2]
        masks.append(T ^ (K & LOW64))
    masks.append(rows[9][1])
    return masks

def encrypt(mode, tau, key, tweak, instruction):
    path = paths_of(mode)[0]
    block = undo(path, key, masks_of(mode, key, tweak), instruction)
    if mode == TAGGED:
        (x, tag), _, _ = trace(mode, paths_of(mode), key, tweak, block)[-1]
        stored = (block << tau) | (tag & ((1 << tau) - 1))
    else:
        stored = block
    assert decrypt(mode, tau, key, tweak, stored) == instruction
    return stored

# ---- images

def fits(mode, tau):
    return 8 <= tau <= 16 if mode == TAGGED else tau == 8

def lay_out(mode, tau, version, base, records):
    text = format(0, "02b") + str(mode) + format(tau, "05b") + format(version, "08b")
    text += format(base, "030b") + format(len(records), "020b")
    for record in records:
        assert record < 1 << (32 + tau)
        text += format(record, "0%db" % (32 + tau))
    text += "0" * (-len(text) % 8)
    return bytes(int(text[i:i + 8], 2) for i in range(0, len(text), 8))

assert lay_out(TAGGED, 16, 7, 0x400, [0x0123456789AB, 1]) == bytes.fromhex(
    "100700001000000080 48D159E26AC0 000000000040".replace(" ", ""))

def tweak_of(version, address):
    return (version << 32) + address

def make(mode, tau, key, version, base, program):
    return lay_out(mode, tau, version, base,
                   [encrypt(mode, tau, key, tweak_of(version, 4 * (base + k)), i) for k, i in enumerate(program)])

class Refused(Exception):
    def __init__(self, number, place, layer):
        self.number, self.place, self.layer = number, place, layer

def check(image):
    """The header (mode, tau, version, base, count) and the records, or the first refusal."""
    if len(image) < 9:
        raise Refused(2, len(image), "image")
    text = "".join(format(b, "08b") for b in image)
    field = lambda at, w: int(text[at:at + w], 2)
    mode, tau, version, base, count = field(2, 1), field(3, 5), field(8, 8), field(16, 30), field(46, 20)
    if field(0, 2) != 0:
        raise Refused(3, 0, "image")
    if not fits(mode, tau):
        raise Refused(3, 3, "image")
    if count == 0:
        raise Refused(3, 46, "image")
    if base + count > 1 << 30:
        raise Refused(3, 16, "image")
    width = 32 + tau
    right = (66 + count * width + 7) // 8
    if len(image) != right or "1" in text[66 + count * width:]:
        raise Refused(4, right, "image")
    return (mode, tau, version, base, count), [field(66 + k * width, width) for k in range(count)]

# ---- memories: chips of Python lists

class Packed:
    def __init__(self, chip):
        self.chip = chip

    def slots(self):
        return min(len(self.chip) // 6, 1048575)

    def get(self, s):
        return int.from_bytes(bytes(self.chip[6 * s:6 * s + 6]), "big")

    def put(self, s, number):
        self.chip[6 * s:6 * s + 6] = list(number.to_bytes(6, "big"))

class Paired:
    def __init__(self, high, low):
        self.high, self.low = high, low

    def slots(self):
        return min(len(self.high), len(self.low), 1048575)

    def get(self, s):
        return self.high[s] * 65536 + self.low[s]

    def put(self, s, number):
        self.high[s], self.low[s] = number >> 16, number & 0xFFFF

class Joined:
    def __init__(self, first, second):
        self.first, self.second = first, second

    def slots(self):
        return min(self.first.slots() + self.second.slots(), 1048575)

    def part(self, s):
        n = self.first.slots()
        return (self.first, s) if s < n else (self.second, s - n)

    def get(self, s):
        m, t = self.part(s)
        return m.get(t)

    def put(self, s, number):
        m, t = self.part(s)
        m.put(t, number)

# ---- the unit

class Unit:
    def __init__(self, mode, tau, memory):
        self.mode, self.tau, self.memory = mode, tau, memory
        self.condition, self.key, self.strikes = "unkeyed", 0, 0
        self.version, self.base, self.count = None, 0, 0

    def strike(self, refusal):
        self.strikes += 1
        if self.strikes == 4:
            self.condition, self.key = "locked", 0
        raise refusal

    def opens(self, version, address, stored):
        return decrypt(self.mode, self.tau, self.key, tweak_of(version, address), stored)

    def load(self, key):
        if self.condition == "live":
            raise Refused(14, 0, "unit")
        self.condition, self.key, self.strikes = "live", key, 0
        self.version, self.base, self.count = None, 0, 0

    def install(self, image):
        if self.condition != "live":
            raise Refused(1, 0, "unit")
        (mode, tau, version, base, count), records = check(image)
        if (mode, tau) != (self.mode, self.tau):
            raise Refused(5, 2, "cipher")
        if version <= (self.version or 0):
            raise Refused(6, self.version or 0, "unit")
        if count > self.memory.slots():
            raise Refused(7, self.memory.slots(), "unit")
        for k, record in enumerate(records):
            if self.opens(version, 4 * (base + k), record) is None:
                self.strike(Refused(8, k, "cipher"))
        for k, record in enumerate(records):
            self.memory.put(k, record)
        self.version, self.base, self.count = version, base, count

    def fetch(self, address):
        if self.condition != "live":
            raise Refused(1, 0, "unit")
        if address % 4:
            raise Refused(9, address, "unit")
        slot = address // 4 - self.base
        if self.version is None or not 0 <= slot < self.count:
            raise Refused(10, address, "unit")
        instruction = self.opens(self.version, address, self.memory.get(slot))
        if instruction is None:
            self.strike(Refused(11, address, "cipher"))
        return instruction

    def overwrite(self, slot, number):
        if slot >= self.memory.slots():
            raise Refused(12, slot, "memory")
        if number >= 1 << 48:
            raise Refused(13, slot, "memory")
        self.memory.put(slot, number)

    def strikes_left(self):
        return 4 - self.strikes if self.condition == "live" else 0

# ---- the voyage

KEY = 0x2B7E151628AED2A6ABF7158809CF4F3C
BASE = 0x400
REST = [0x00000593, 0x00A585B3, 0xFFF50513, 0xFE051CE3, 0x00058513, 0x00008067, 0x00000013]
TO_TEN, TO_TWENTY = [0x00A00513] + REST, [0x01400513] + REST

out = []

def say(text):
    out.append(text)

def dump(data, digits, per_line):
    for i in range(0, len(data), per_line):
        say("".join(" %0*X" % (digits, x) for x in data[i:i + per_line]))

def told(act):
    try:
        answer = act()
        return "done" if answer is None else "%08X" % answer
    except Refused as r:
        return "refused %d at %d (%s)" % (r.number, r.place, r.layer)

def header_of(image):
    return check(image)[0]

class Teller:
    """Performs a call and says it, with its answer."""
    def __init__(self, unit):
        self.unit = unit

    def load(self):
        say("load: " + told(lambda: self.unit.load(KEY)))

    def install(self, image):
        mode, tau, version, _, _ = header_of(image)
        name = "tagged" if mode == TAGGED else "block"
        say("install version %d, %s %d: %s" % (version, name, tau, told(lambda: self.unit.install(image))))

    def fetch(self, address):
        answer = told(lambda: self.unit.fetch(address))
        say("fetch %X: %s" % (address, answer))
        return answer

    def overwrite(self, slot, number):
        say("overwrite %d with %012X: %s" % (slot, number, told(lambda: self.unit.overwrite(slot, number))))

    def status(self):
        u = self.unit
        say("status: %d slots, %d installed, %d strikes left, %s" % (
            u.memory.slots(), u.count, u.strikes_left(),
            "no version" if u.version is None else "version %d" % u.version))

def voyage(name, mode, tau, foreign_tau):
    say(name)
    seventh = make(mode, tau, KEY, 7, BASE, TO_TEN)
    eighth = make(mode, tau, KEY, 8, BASE, TO_TWENTY)
    damaged = bytearray(make(mode, tau, KEY, 9, BASE, TO_TWENTY))
    damaged[30] ^= 0x10
    damaged = bytes(damaged)
    foreign = make(TAGGED, foreign_tau, KEY, 7, BASE, TO_TEN)
    say("draft closed: version 7, base %X, %d words, %d bytes" % (BASE, len(TO_TEN), len(seventh)))
    say("image made at once: the same bytes")
    dump(seventh, 2, 16)
    bytes_, high, low = [0xEE] * 34, [0xDDDDDDDD] * 7, [0xCCCC] * 6
    memory = Joined(Packed(bytes_), Paired(high, low))
    t = Teller(Unit(mode, tau, memory))
    say("the first key")
    t.status()
    t.fetch(0x1000)
    t.load()
    t.load()
    t.fetch(0x1000)
    t.install(seventh)
    same = sum(t.fetch(0x1000 + 4 * k) == "%08X" % TO_TEN[k] for k in range(8))
    say("%d of 8 as put in" % same)
    t.status()
    say("refusals that are no strikes")
    t.fetch(0xFFC)
    t.fetch(0x1020)
    t.fetch(0x1002)
    t.install(foreign)
    t.status()
    say("a stranger")
    old = check(seventh)[1][1]
    t.overwrite(1, old ^ 1)
    t.fetch(0x1004)
    t.status()
    t.overwrite(1, old)
    t.fetch(0x1004)
    say("a newer version")
    t.install(eighth)
    t.fetch(0x1000)
    t.install(seventh)
    t.status()
    say("four rejections")
    t.install(damaged)
    t.status()
    t.overwrite(6, check(eighth)[1][5])
    t.overwrite(9, 0x123456789ABC)
    t.fetch(0x1018)
    t.fetch(0x1018)
    t.status()
    t.fetch(0x1000)
    say("a new key")
    t.load()
    t.fetch(0x1000)
    t.status()
    t.install(seventh)
    t.fetch(0x1000)
    t.status()
    say("the memory, once the first unit is gone")
    for slot in range(memory.slots()):
        say("slot %d: %012X" % (slot, memory.get(slot)))
    say("a second unit, by a list of calls")
    t = Teller(Unit(mode, tau, memory))
    t.fetch(0x1000)
    t.load()
    t.fetch(0x1000)
    t.install(eighth)
    t.fetch(0x1000)
    t.fetch(0x101C)
    t.install(seventh)
    t.overwrite(11, 0)
    t.overwrite(10, 1 << 48)
    t.overwrite(10, (1 << 48) - 1)
    t.overwrite(2, check(eighth)[1][3])
    t.fetch(0x1008)
    t.status()
    say("the chips, once the unit is gone")
    dump(bytes_, 2, 16)
    dump(high, 8, len(high))
    dump(low, 4, len(low))

# ---- the published vectors, against what the program vectors prints

def vectors(file):
    key, tweak = 0xFEDCBA98765432107766554433221100, 0x0011223344556677
    rows = ["input", "whitening"] + ["round %d" % i for i in range(8)]
    mine = ["ChiLow-(32+t): computed, published"]

    def cell(row, column, value, digits):
        v = "%0*X" % (digits, value)
        mine.append("%-9s %-6s %s %s as published" % (row, column, v, v))

    for row, (X, T, K) in zip(rows, trace(TAGGED, [DATA32, TAG32], key, tweak, 0x01234567)):
        cell(row, "cipher", X[0], 8)
        cell(row, "tag", X[1], 8)
        cell(row, "tweak", T, 16)
        cell(row, "key", K, 32)
    mine.append("ChiLow-40: computed, published")
    for row, (X, T, K) in zip(rows, trace(BLOCK, [DATA40], key, tweak, 0x317C83E4A7)):
        cell(row, "cipher", X[0], 10)
        cell(row, "tweak", T, 16)
        cell(row, "key", K, 32)
    mine.append("stored words: instruction, stored, opened again, with bit 0 flipped, with a surplus bit")

    def word(name, mode, tau, instruction):
        stored = encrypt(mode, tau, key, tweak, instruction)
        bits = 32 + tau
        verdict = lambda s: "rejected" if decrypt(mode, tau, key, tweak, s) is None else "genuine"
        mine.append("%-13s t %2d %08X %0*X %08X %s %s" % (
            name, tau, instruction, (bits + 3) // 4, stored, decrypt(mode, tau, key, tweak, stored),
            verdict(stored ^ 1), verdict(stored | 1 << bits)))

    for tau in range(8, 17):
        word("ChiLow-(32+t)", TAGGED, tau, 0x2E75D127)
    word("ChiLow-40", BLOCK, 8, 0x90545706)
    mine.append("70 values compared, 0 differ")
    theirs = open(file, encoding="utf-8").read().splitlines()
    if mine != theirs:
        for a, b in zip(mine, theirs):
            if a != b:
                print("model:", a, "\nfile: ", b)
        sys.exit("the model and %s differ" % file)
    print("%d lines, all the same" % len(mine))

# ---- stamp: a two-word image by a draft

def stamp():
    image = make(TAGGED, 16, KEY, 7, BASE, TO_TEN[:2])
    say("image of %d bytes" % len(image))
    dump(image, 2, 64)

# ---- the console, from docs/CONSOLE.md: lines by regular expressions

import re

DIGIT = rb"[0-9A-F]"
# each form with its letter and its words; a form is a list of pieces, each a regular expression of one byte
FORMS = {
    b"K": [b"K", b" "] + [DIGIT] * 32,
    b"F": [b"F", b" "] + [DIGIT] * 8,
    b"W": [b"W", b" "] + [DIGIT] * 5 + [b" "] + [DIGIT] * 12,
    b"S": [b"S"],
}
IMAGE = re.compile(rb"I (?:%s%s)+" % (DIGIT, DIGIT))

def begins(part):
    """Whether a line of an allowed form begins with these bytes."""
    if any(len(part) <= len(form) and all(re.fullmatch(p, part[i:i + 1], re.S) for i, p in enumerate(form[:len(part)]))
           for form in FORMS.values()):
        return True
    return any(IMAGE.fullmatch(part + more) for more in (b"", b"0", b"00", b" 00", b"I 00")) or part in (b"", b"I")

def whole(line):
    return IMAGE.fullmatch(line) is not None or any(
        len(line) == len(form) and begins(line) and line[:1] == form[0] for form in FORMS.values())

def garbled(line):
    """The place at which a line is garbled, or None."""
    if len(line) > 1024:
        return 1024
    if whole(line):
        return None
    return max(n for n in range(len(line) + 1) if begins(line[:n]))

def answer(unit, line):
    place = garbled(line)
    if place is not None:
        return "no 20 %d" % place
    words = line.decode("ascii").split(" ")
    try:
        if words[0] == "K":
            unit.load(int(words[1], 16))
        elif words[0] == "I":
            unit.install(bytes.fromhex(words[1]))
        elif words[0] == "F":
            return "ok %08X" % unit.fetch(int(words[1], 16))
        elif words[0] == "W":
            unit.overwrite(int(words[1], 16), int(words[2], 16))
        else:
            slots = unit.memory.slots()
            share = 1000 * unit.count // slots if slots else 0
            return "slots %d used %d share %d left %d" % (slots, unit.count, share, unit.strikes_left())
        return "ok"
    except Refused as r:
        return "no %d %d" % (r.number, r.place)

def console(data):
    lines = data.split(b"\n")
    if lines[-1] == b"":
        lines.pop()
    unit = Unit(TAGGED, 8, Packed([0] * 384))
    return "".join(answer(unit, line) + "\n" for line in lines)

assert console(b"F 00000000\nW 00003 000000000001\nW 00040 000000000000\nK " + b"0" * 32
               + b"\nF 00000002\nF 00000004\nS") == (
    "no 1 0\nok\nno 12 64\nok\nno 9 2\nno 10 4\nslots 64 used 0 share 0 left 4\n")

def session():
    """A session that meets every refusal that a console can meet, and lines garbled in every way."""
    key = b"K %032X" % KEY
    image = lambda data: b"I " + data.hex().upper().encode()
    one = make(TAGGED, 8, KEY, 1, BASE, [0x00A00513])
    eight = make(TAGGED, 8, KEY, 7, BASE, TO_TEN)
    full = make(TAGGED, 8, KEY, 9, BASE, (TO_TWENTY * 8)[:64])
    # 65 records, which 64 slots do not hold; the records need not decrypt, since the size is checked first
    big = lay_out(TAGGED, 8, 10, BASE, list(range(65)))
    foul = bytearray(make(TAGGED, 8, KEY, 8, BASE, TO_TEN))
    foul[40] ^= 0x10
    pad = bytearray(eight)
    pad[-1] |= 1
    other = make(TAGGED, 12, KEY, 8, BASE, TO_TEN[:2])
    block = make(BLOCK, 8, KEY, 8, BASE, TO_TEN[:2])
    record = check(eight)[1]
    fetch = lambda a: b"F %08X" % a
    write = lambda s, n: b"W %05X %012X" % (s, n)
    L = []
    # before a key
    L += [b"S", fetch(0), image(one), write(3, 1), write(63, (1 << 48) - 1), write(64, 0), write(0xFFFFF, 0), b"S"]
    # garbled lines, which change nothing
    L += [b"", b" ", b"X", b"k", b"s", b"\x00", b"\xff\xfe", b"S ", b"S\r", b"SS", b"S 0", b" S", b"K", b"K ", b"K  ", b"K0",
          b"K " + b"0" * 31, b"K " + b"0" * 33, b"K " + b"0" * 32 + b" ", b"K " + b"0" * 32 + b"\r", b"K " + b"0" * 31 + b"a",
          b"K " + b"0" * 31 + b"G", b"K " + b"0" * 15 + b" " + b"0" * 16, b"K\t" + b"0" * 32, b"K  " + b"0" * 32,
          b"k " + b"0" * 32, b"K" + b"0" * 32, b"K " + b"0" * 10 + b"\x00", b"K " + b"0" * 10 + b"\xc3\xa9",
          b"I", b"I ", b"I 0", b"I 00 ", b"I 000", b"I 0g", b"I 0x", b"I  00", b"I 00 00", b"I 00a0", b"I\x8000", b"I 00\r",
          b"F", b"F ", b"F 0000000", b"F 000000000", b"F 00000000 ", b"F 0000000@", b"F 0000000/", b"F 0000000:", b"F 0000000`",
          b"F  0000000", b"F-00000000", b"F 00000000 00000000", b"FF00000000", b"f 00000000", b"F 0000000\x00",
          b"W", b"W ", b"W 0000", b"W 00000", b"W 00000 ", b"W 00000 00000000000", b"W 00000 0000000000000",
          b"W 00000  000000000000", b"W  00000 000000000000", b"W 00000 000000000000 ", b"W 0000 000000000000",
          b"W 000000 000000000000", b"W 00000\x20\x80", b"W 0000A 00000000000b", b"W 0000a 000000000000",
          b"W 00000-000000000000", b"G 00000000", b"J 00", b"L", b"R", b"T", b"V", b"\rS",
          b"S" + b" " * 1023, b"S" + b" " * 1024, b"X" * 1024, b"X" * 1025, b"K" + b"0" * 1024, b"0" * 3000,
          b"I " + b"0" * 1021, b"I " + b"0" * 1022, b"I " + b"0" * 1023, b"I " + b"0" * 1024, b"I " + b"0" * 1020 + b"x",
          b"I " + b"0" * 1021 + b"x", b"I " + b"0" * 1022 + b"x", b"S"]
    # the first key
    L += [key, key, b"K " + b"F" * 32, fetch(0x1000), fetch(2), fetch(0xFFFFFFFF), fetch(0xFFFFFFFC), b"S"]
    # images that are none
    L += [b"I 00", image(eight[:8]), image(bytes([eight[0] | 0x40]) + eight[1:]), image(bytes([0x07]) + eight[1:]),
          image(bytes([0x11]) + eight[1:]), image(bytes([0x29]) + eight[1:]), image(eight[:5] + bytes([0, 0, 0]) + bytes([eight[8] & 0x3F]) + eight[9:]),
          image(eight[:2] + b"\xff\xff\xff\xff" + eight[6:]), image(eight[:-1]), image(eight + b"\0"), image(bytes(pad)),
          b"I " + b"0" * 1022, b"I " + b"F" * 1022, image(other), image(block), b"S"]
    # one record, then eight, then older ones
    L += [image(one), fetch(0x1000), fetch(0x1004), fetch(0xFFC), b"S", image(one), image(eight)]
    L += [fetch(0x1000 + 4 * k) for k in range(8)] + [fetch(0x1020), fetch(0x1001), b"S", image(one), image(eight), b"S"]
    # a version of 0 is never above
    L += [image(make(TAGGED, 8, KEY, 0, BASE, [0x13])), image(big), b"S"]
    # a stranger writes: a strike; the old number again, and the address yields again
    L += [write(1, record[1] ^ 1), fetch(0x1004), b"S", write(1, record[1]), fetch(0x1004), b"S"]
    # a foul record, then sixty-four good ones
    L += [image(bytes(foul)), b"S", image(full), b"S"] + [fetch(0x1000 + 4 * k) for k in (0, 1, 31, 62, 63, 64)]
    # a garbled line is no strike and no call
    L += [b"F 0000100", b"F 00001000 ", b"S"]
    # two rejections more lock the unit
    L += [write(0, 0), write(2, (1 << 48) - 1), fetch(0x1000), b"S", fetch(0x1008), b"S", fetch(0x1004), image(full), write(1, 5), write(64, 5), b"S"]
    # a new key, and a new life
    L += [key, b"S", fetch(0x1000), image(one), fetch(0x1000), b"S", b"K " + b"0" * 32, image(eight), fetch(0x1000), fetch(0x101C), b"S"]
    # four foul images in a row, the lock, and another key under which nothing decrypts
    foul[1] = 9
    L += [image(bytes(foul))] * 4 + [b"S", image(eight), b"K " + b"0" * 31 + b"1", image(one), b"S", fetch(0x1000), b"S",
          image(make(TAGGED, 8, 1, 255, (1 << 30) - 1, [0xFFFFFFFF])), fetch(0xFFFFFFFC), fetch(0), b"S"]
    # the last line has no line feed
    return b"\n".join(L)

if __name__ == "__main__":
    if sys.argv[1:2] == ["vectors"]:
        vectors(sys.argv[2])
    elif sys.argv[1:] == ["voyage"]:
        voyage("ChiLow-(32+16)", TAGGED, 16, 12)
        voyage("ChiLow-40", BLOCK, 8, 8)
        print("\n".join(out))
    elif sys.argv[1:] == ["stamp"]:
        stamp()
        print("\n".join(out))
    elif sys.argv[1:] == ["console"]:
        sys.stdout.write(console(sys.stdin.buffer.read()))
    elif sys.argv[1:] == ["session"]:
        sys.stdout.buffer.write(session())
    else:
        sys.exit(__doc__)
