#!/usr/bin/env python3
"""What benchtrace has to print, worked out without any of the crates.

    scripts/expected_benchtrace.py > crates/benchtrace/stdout

The benches stand here as nested trees, not as rows, and the packets are put together bit by bit from docs/self-id.md.
"""

ABSENT, OPEN, UP, DOWN = 0, 1, 2, 3


def node(speed, power, ports, gap=63, link=1, contender=0, initiator=0):
    """ports: port number -> OPEN, UP, or the child's node. What is not named is absent."""
    return {"speed": speed, "power": power, "gap": gap, "link": link,
            "contender": contender, "initiator": initiator, "ports": ports}


def mark(n, port):
    there = n["ports"].get(port, ABSENT)
    return DOWN if isinstance(there, dict) else there


def put(bits, high, low, value):
    assert 0 <= value < 1 << (high - low + 1)
    for k in range(high - low + 1):
        bits[low + k] = value >> k & 1


def word(bits):
    return sum(b << k for k, b in enumerate(bits))


def packets(n, number):
    last = 0                                    # which packet is the last one sent
    if any(mark(n, p) != ABSENT for p in range(3, 16)):
        last = 1
    if any(mark(n, p) != ABSENT for p in range(11, 16)):
        last = 2
    out = []
    for k in range(last + 1):
        bits = [0] * 32
        put(bits, 31, 30, 2)
        put(bits, 29, 24, number)
        if k == 0:
            put(bits, 22, 22, n["link"])
            put(bits, 21, 16, n["gap"])
            put(bits, 15, 14, n["speed"])
            put(bits, 11, 11, n["contender"])
            put(bits, 10, 8, n["power"])
            for i, p in enumerate((0, 1, 2)):
                put(bits, 7 - 2 * i, 6 - 2 * i, mark(n, p))
            put(bits, 1, 1, n["initiator"])
        else:
            put(bits, 23, 23, 1)
            put(bits, 22, 20, k - 1)
            for i in range(8):
                p = 8 * (k - 1) + 3 + i
                if p < 16:
                    put(bits, 17 - 2 * i, 16 - 2 * i, mark(n, p))
        put(bits, 0, 0, int(k < last))
        out.append(word(bits))
    return out


def announce(n, out, count=0):
    """Appends the packets of n and of all below it, and returns how many nodes are announced then."""
    for p in sorted(n["ports"]):
        if isinstance(n["ports"][p], dict):
            count = announce(n["ports"][p], out, count)
    out.extend(packets(n, count))
    return count + 1


def sent(name, root):
    out = []
    announce(root, out)
    print("#", name)
    print("reset")
    for w in out:
        print("%08X %08X" % (w, w ^ 0xFFFFFFFF))


def refused(name, number):
    print("#", name)
    print("# refused:", number)


S100, S200, S400 = 0, 1, 2
MANAGER = {"contender": 1, "initiator": 1}

three = node(S400, 0, {0: node(S200, 4, {0: UP}), 1: OPEN, 2: node(S400, 4, {0: OPEN, 1: UP})}, **MANAGER)
sent("three cameras", three)
sent("a lone node", node(S400, 0, {0: OPEN, 1: OPEN, 2: OPEN}, **MANAGER))
sent("a hub with both extensions", node(S400, 3, {
    4: node(S100, 7, {3: node(S100, 5, {2: UP}), 15: UP}),
    11: OPEN,
    12: node(S400, 1, {0: OPEN, 1: UP}),
    15: node(S200, 2, {5: UP, 8: OPEN}),
}, **MANAGER))
# port 0 leads to the child with its up mark on port 15, port 15 to the one with it on port 0
sent("a root with sixteen children", node(S400, 0, {p: node(S200, 4, {15 - p: UP}) for p in range(16)}, **MANAGER))


def chain(place, length):
    ports = {0: OPEN if place == 0 else UP}
    if place + 1 < length:
        ports[1] = chain(place + 1, length)
    return node(place % 3, place % 8, ports, gap=place)


sent("a chain of 63", chain(0, 63))
sent("three cameras in just enough room", three)
refused("a gap count of 64", 15)
refused("a speed code of 3", 15)
refused("a power class of 8", 15)
refused("a mark code of 4", 15)
refused("a child's row behind the last", 15)
refused("a row reached twice", 16)
refused("a row never reached", 16)
refused("a root with an up mark", 16)
refused("a node without an up mark", 16)
refused("a node with two up marks", 16)
refused("a ring", 16)
refused("no row", 14)
refused("a chain of 64", 14)
refused("a chain of 64 and too few words", 14)
refused("the first stack row too short", 13)
refused("the second stack row too short", 13)
refused("a stack row too short and a gap count of 64", 13)
refused("too few words", 13)
refused("too few words and a ring", 16)


def bits_of(w, high, low):
    return w >> low & ((1 << (high - low + 1)) - 1)


def told(w):
    if bits_of(w, 31, 30) != 0b10:
        return "is no packet: 3"
    if bits_of(w, 23, 23) == 0:
        if bits_of(w, 13, 12) or bits_of(w, 15, 14) == 3:
            return "is no packet: 4"
        what = "packet zero"
    else:
        e = bits_of(w, 22, 20)
        if bits_of(w, 19, 18) or bits_of(w, 1, 1) or (e == 1 and bits_of(w, 7, 2)):
            return "is no packet: 4"
        what = "extension %d" % e
    return "is %s of node %d, sent as %08X" % (what, bits_of(w, 29, 24), w)


print("# words read as packets")
for w in (0x827F88DE, 0x81830001, 0x81900200, 0xBFF3FFFD, 0x80A00004, 0x00000000, 0x407F88DE, 0xC07F88DE,
          0x807FC856, 0x807F9856, 0x807FA856, 0x80880000, 0x80840000, 0x80800002, 0x80900004, 0x80900080):
    print("# %08X %s" % (w, told(w)))
