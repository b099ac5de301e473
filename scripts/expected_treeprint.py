#!/usr/bin/env python3
"""What treeprint has to print, worked out without any of the crates.

    scripts/expected_treeprint.py --trace > crates/treeprint/stdin
    scripts/expected_treeprint.py < crates/treeprint/stdin > crates/treeprint/stdout
    scripts/expected_treeprint.py --self-test

It shares nothing with the crates: the packets are put together bit by bit from nested trees, they are read back
by tests written out one after the other, and whether an announcement can still get whole is searched for.
"""

import itertools
import random
import sys
from functools import lru_cache

ABSENT, OPEN, UP, DOWN = 0, 1, 2, 3
LETTERS = ".oud"
MOST_BYTES = 65536
LONGEST_LINE = 255


# ---- announcing: from a cabling to quadlets

def put(bits, high, low, value):
    assert 0 <= value < 1 << (high - low + 1)
    for k in range(high - low + 1):
        bits[low + k] = value >> k & 1


def word(bits):
    return sum(b << k for k, b in enumerate(bits))


def zero(number, marks, more=0, link=1, gap=63, speed=1, contender=0, power=4, initiator=0):
    """Packet zero. marks: three letters."""
    bits = [0] * 32
    put(bits, 31, 30, 2)
    put(bits, 29, 24, number)
    put(bits, 22, 22, link)
    put(bits, 21, 16, gap)
    put(bits, 15, 14, speed)
    put(bits, 11, 11, contender)
    put(bits, 10, 8, power)
    for i in range(3):
        put(bits, 7 - 2 * i, 6 - 2 * i, LETTERS.index(marks[i]))
    put(bits, 1, 1, initiator)
    put(bits, 0, 0, more)
    return word(bits)


def ext(number, e, marks, more=0):
    """An extension. marks: eight letters, five if e is 1."""
    assert len(marks) == (5 if e == 1 else 8)
    bits = [0] * 32
    put(bits, 31, 30, 2)
    put(bits, 29, 24, number)
    put(bits, 23, 23, 1)
    put(bits, 22, 20, e)
    for i, letter in enumerate(marks):
        put(bits, 17 - 2 * i, 16 - 2 * i, LETTERS.index(letter))
    put(bits, 0, 0, more)
    return word(bits)


def packets(number, marks, **fields):
    """All packets of one node. marks: up to sixteen letters, what is not named is absent."""
    marks = marks.ljust(16, ".")
    if marks[3:] == "." * 13:
        return [zero(number, marks[:3], **fields)]
    if marks[11:] == "." * 5:
        return [zero(number, marks[:3], 1, **fields), ext(number, 0, marks[3:11])]
    return [zero(number, marks[:3], 1, **fields), ext(number, 0, marks[3:11], 1), ext(number, 1, marks[11:])]


def node(ports, **fields):
    """ports: port number -> OPEN, UP, or the child's node. What is not named is absent."""
    return {"ports": ports, "fields": fields}


def letters(n):
    there = [n["ports"].get(p, ABSENT) for p in range(16)]
    return "".join("d" if isinstance(x, dict) else LETTERS[x] for x in there)


def announce(n, out, count=0):
    """Appends the packets of n and of all below it, and returns how many nodes are announced then."""
    for p in sorted(n["ports"]):
        if isinstance(n["ports"][p], dict):
            count = announce(n["ports"][p], out, count)
    out.extend(packets(count, letters(n), **n["fields"]))
    return count + 1


def inverse(w):
    return w ^ 0xFFFFFFFF


def pairs(*parts):
    """The quadlets of packets and lists of packets: each packet, then its inverse."""
    out = []
    for part in parts:
        for w in [part] if isinstance(part, int) else part:
            out += [w, inverse(w)]
    return out


def sent(root):
    out = []
    announce(root, out)
    return pairs(out)


# ---- reading: from quadlets to a cabling, or to the test that failed

REAL = (63, (3, 8, 5))              # how many nodes a bus has at most, how many ports each packet of a node tells


@lru_cache(maxsize=None)
def can_end(finished, loose, due, ups, downs, world=REAL):
    """Whether some packets lead from here to a whole announcement.

    So many nodes are finished, so many loose ends are there, and packet `due` of a node is next whose packets before
    it held so many up and down marks. All counts of up and down marks that packet can hold are tried, both as the
    node's last and with more to follow. (A last extension without up and down marks holds an open one.)
    """
    most, ports = world
    if finished == most:
        return False
    for u in range(ups, 2):
        for d in range(downs, min(downs + ports[due] - (u - ups), loose) + 1):
            if u == 0 and d == loose:
                return True
            if u == 1 and can_end(finished + 1, loose - d + 1, 0, 0, 0, world):
                return True
            if due + 1 < len(ports) and can_end(finished, loose, due + 1, u, d, world):
                return True
    return False


def test_marks(finished, loose, before, due, marks, more, world=REAL):
    """Tests 7 to 11 for packet `due` with these marks, of a node with the marks `before` in its packets so far."""
    ups = (before + marks).count(UP)
    downs = (before + marks).count(DOWN)
    if due > 0 and not more and all(m == ABSENT for m in marks):
        return 7
    if ups >= 2:
        return 8
    if downs > loose:
        return 9
    if not more and ups == 0 and downs < loose:
        return 10
    if more and not can_end(finished, loose, due + 1, ups, downs, world):
        return 11
    if not more and ups == 1 and not can_end(finished + 1, loose - downs + 1, 0, 0, 0, world):
        return 11
    return 0


def bits_of(w, high, low):
    return w >> low & ((1 << (high - low + 1)) - 1)


def marks_of(w, high, count):
    return [bits_of(w, high - 2 * i, high - 2 * i - 1) for i in range(count)]


class Gathering:
    """The quadlets since a reset."""

    def __init__(self):
        self.taken = 0
        self.packet = None          # the one whose inverse is due
        self.due = 0                # 0: packet zero, 1: extension 0, 2: extension 1
        self.fields = {}            # of the node under way
        self.marks = []             # of the node under way
        self.nodes = []             # the finished ones: fields, sixteen marks, port -> the child's number
        self.loose = []             # numbers of the nodes that are loose ends, oldest first
        self.whole = False
        self.spoiled = None         # test and place

    def test(self, w):
        if self.whole:
            return 1
        if self.packet is not None:
            return 0 if w == inverse(self.packet) else 2
        if bits_of(w, 31, 30) != 0b10:
            return 3
        more = bits_of(w, 0, 0)
        if bits_of(w, 23, 23) == 0:
            kind, marks = 0, marks_of(w, 7, 3)
            if bits_of(w, 13, 12) or bits_of(w, 15, 14) == 3:
                return 4
        else:
            e = bits_of(w, 22, 20)
            kind, marks = 1 + e, marks_of(w, 17, 5 if e == 1 else 8)
            if bits_of(w, 19, 18) or bits_of(w, 1, 1) or (e == 1 and bits_of(w, 7, 2)):
                return 4
        if bits_of(w, 29, 24) != len(self.nodes):
            return 5
        if kind != self.due or (kind == 2 and more):
            return 6
        return test_marks(len(self.nodes), len(self.loose), self.marks, kind, marks, more)

    def take(self, w):
        stop = self.test(w)
        if stop:
            self.spoiled = stop, self.taken
            return
        self.taken += 1
        if self.packet is None:
            self.packet = w
            self.keep(w)
        else:
            ends = bits_of(self.packet, 0, 0) == 0
            self.packet = None
            self.due += 1
            if ends:
                self.end_node()

    def keep(self, w):
        if self.due == 0:
            self.fields = {"link": bits_of(w, 22, 22), "gap": bits_of(w, 21, 16), "speed": bits_of(w, 15, 14),
                           "contender": bits_of(w, 11, 11), "power": bits_of(w, 10, 8), "initiator": bits_of(w, 1, 1)}
            self.marks = marks_of(w, 7, 3)
        else:
            self.marks += marks_of(w, 17, 8 if self.due == 1 else 5)

    def end_node(self):
        marks = self.marks + [ABSENT] * (16 - len(self.marks))
        downs = [p for p in range(16) if marks[p] == DOWN]
        kept = len(self.loose) - len(downs)
        children = dict(zip(downs, self.loose[kept:]))
        self.loose = self.loose[:kept]
        if UP in marks:
            self.loose.append(len(self.nodes))
        else:
            self.whole = True
        self.nodes.append({"fields": self.fields, "marks": marks, "children": children})
        self.due, self.fields, self.marks = 0, {}, []


# ---- printing

def node_line(number, n):
    f = n["fields"]
    flags = "".join(letter if f[name] else "-" for letter, name in
                    (("L", "link"), ("C", "contender"), ("I", "initiator")))
    ports = "".join(LETTERS[m] for m in n["marks"])
    return "node %d S%d gap %d power %d %s %s" % (number, 100 << f["speed"], f["gap"], f["power"], flags, ports)


def bus_lines(nodes):
    """What follows the first line of a bus. Lines about the bus as a whole go behind those of the nodes."""
    return [node_line(i, n) for i, n in enumerate(nodes)]


def settled(reset, g):
    if g.spoiled:
        return ["reset %d void %d at %d" % (reset, *g.spoiled)]
    if not g.whole:
        return ["reset %d void 32 at %d" % (reset, g.taken)]
    return ["reset %d nodes %d" % (reset, len(g.nodes))] + bus_lines(g.nodes)


def words_of(line):
    """The words of a line, none for a note; None if the line is malformed."""
    if line == b"" or line[:1] == b"#":
        return []
    words = line.split(b" ")
    if any(len(w) != 8 or any(c not in b"0123456789ABCDEFabcdef" for c in w) for w in words):
        return None
    return [int(w, 16) for w in words]


def expected(data):
    """The print for a whole trace, as lines."""
    if len(data) > MOST_BYTES:
        return ["stop 23"]
    resets = []                     # gathering, and the trace's stop or None
    for number, line in enumerate(data.split(b"\n"), 1):
        if line == b"reset":
            resets.append([Gathering(), None])
            continue
        if not resets or resets[-1][0].spoiled or resets[-1][1]:
            continue
        if len(line) > LONGEST_LINE:
            resets[-1][1] = 20, number
        elif words_of(line) is None:
            resets[-1][1] = 21, number
        else:
            for w in words_of(line):
                if not resets[-1][0].spoiled:
                    resets[-1][0].take(w)
    out = []
    for i, (gathering, stop) in enumerate(resets, 1):
        out += settled(i, gathering)
        if stop:
            out.append("reset %d trace %d at line %d" % (i, *stop))
    return out


# ---- the long trace

def lines_of(quadlets, per_line=2, form="%08X"):
    for i in range(0, len(quadlets), per_line):
        yield " ".join(form % w for w in quadlets[i:i + per_line]).encode()


def mixed(line):
    """Every other letter made small."""
    return b"".join(bytes([c]).lower() if i % 2 else bytes([c]) for i, c in enumerate(line))


class Trace:
    def __init__(self):
        self.lines = []
        self.heads = []             # the lines with `reset` in front that the print has to hold

    def case(self, head, note, *parts):
        """One reset. A part is a list of quadlets, a line, or (20 or 21, the line that stops the trace)."""
        reset = len(self.heads) and int(self.heads[-1].split()[1])
        self.heads.append("reset %d %s" % (reset + 1, head))
        if note:
            self.lines.append(("# %s: %s" % (head, note)).encode())
        self.lines.append(b"reset")
        for part in parts:
            if isinstance(part, list):
                self.lines += lines_of(part, 2 if len(part) <= 24 else 28)
            elif isinstance(part, tuple):
                self.lines.append(part[1])
                self.heads.append("reset %d trace %d at line %d" % (reset + 1, part[0], len(self.lines)))
            else:
                self.lines.append(part)

    def data(self):
        return b"\n".join(self.lines)


def leaves(count):
    return [zero(i, "u..") for i in range(count)]


def prefix(loose, finished):
    """So many leaves, then nodes with one child each: so many finished nodes with so many loose ends."""
    return leaves(loose) + [zero(i, "ud.") for i in range(loose, finished)]


def chain(length, up=0, down=1):
    """A chain as a nested tree: the root leads to all the others."""
    below = None
    for place in range(length):
        ports = {} if below is None else {down: below}
        ports[up] = OPEN if place == length - 1 else UP
        below = node(ports, speed=place % 3, power=place % 8, gap=place, link=place % 2)
    return below


def leaf(port=0, **fields):
    return node({port: UP}, **fields)


def hub(children, up=None):
    """Children on the lowest ports but the one marked up."""
    ports = dict(zip((p for p in range(16) if p != up), children))
    if up is not None:
        ports[up] = UP
    return node(ports, speed=2, power=0)


def binary(depth, up=None):
    free = [p for p in (2, 0, 1) if p != up][:2]
    ports = {p: binary(depth - 1, up=p) for p in free} if depth > 1 else {free[0]: OPEN}
    if up is not None:
        ports[up] = UP
    return node(ports, gap=depth)


class Dice:
    def __init__(self, seed):
        self.source = random.Random(seed)

    def below(self, n):
        return int(self.source.random() * n)

    def one_of(self, things):
        return things[self.below(len(things))]


def random_cabling(dice, count):
    """A tree of so many nodes, with all fields and ports at random."""
    nodes = []
    while len(nodes) < count:
        new = node({}, link=dice.below(2), gap=dice.below(64), speed=dice.below(3), contender=dice.below(2),
                   power=dice.below(8), initiator=dice.below(2))
        new["width"] = dice.one_of((1, 2, 3, 3, 3, 3, 4, 7, 11, 12, 16))
        if nodes:
            free = [(n, p) for n in nodes for p in range(n["width"]) if p not in n["ports"]]
            if not free:
                dice.one_of(nodes)["width"] = 16
                continue
            parent, port = dice.one_of(free)
            parent["ports"][port] = new
            new["ports"][dice.below(new["width"])] = UP
        nodes.append(new)
    for n in nodes:
        for p in range(n["width"]):
            if p not in n["ports"] and dice.below(2):
                n["ports"][p] = OPEN
    return nodes[0]


MANAGER = {"contender": 1, "initiator": 1}
THREE = node({0: leaf(), 1: OPEN, 2: node({0: OPEN, 1: UP}, speed=2)}, speed=2, power=0, **MANAGER)
BOTH = node({
    4: node({3: leaf(2, speed=0, power=5), 15: UP}, speed=0, power=7),
    11: OPEN,
    12: node({0: OPEN, 1: UP}, speed=2, power=1, link=0, contender=1),
    15: node({5: UP, 8: OPEN}, power=2, gap=0, initiator=1),
}, speed=2, power=3, gap=5, **MANAGER)
LONE = node({0: OPEN, 1: OPEN, 2: OPEN}, speed=2, power=0, **MANAGER)
LONGEST = chain(63, up=15, down=14)                         # every node sends three packets: 378 quadlets
TOO_LONG = b"# far too long " + b"." * 285
EXT_DUE = pairs(zero(0, "u..", 1))                          # extension 0 is due
EXT1_DUE = pairs(zero(0, "u..", 1), ext(0, 0, "........", 1))


def front(t):
    """What is passed over before the first reset."""
    t.lines += [b"# a long trace of bus resets", b"", b"not a line of words", b"807F4480 7F80BB7F", b" reset",
                b"reset ", b"RESET", b"reset\r", b"807F4480  7F80BB7F", b"\xff\xfe\x01\t", TOO_LONG, b"F" * 256,
                b"00000000"]


def buses(t):
    three = sent(THREE)
    t.case("nodes 3", "three cameras", three)
    t.case("nodes 1", "no port at all", pairs(zero(0, "...", gap=0, speed=0, power=7, link=0)))
    t.case("nodes 1", "only port 15, and extension 0 is all absent", pairs(packets(0, "...............o")))
    t.case("nodes 2", "one word per line", *lines_of(sent(chain(2)), 1))
    t.case("nodes 2", "port 15 to port 15", sent(node({15: leaf(15)})))
    t.case("nodes 3", "small digits, and notes and empty lines between", b"", b"#", b"# reset", *itertools.chain(
        *((line, b"", b"#reset", b"#\t\xff 12") for line in lines_of(three, 1, "%08x"))))
    t.case("nodes 3", "mixed digits, all on one line", *map(mixed, lines_of(three, 6)))
    t.case("nodes 5", "a hub with both extensions", sent(BOTH))
    t.case("nodes 17", "sixteen children at the root, port p to port 15-p, lines of 251 bytes",
           sent(node({p: leaf(15 - p, gap=p) for p in range(16)}, **MANAGER)))
    t.case("nodes 63", "a chain", sent(chain(63)))
    t.case("nodes 63", "a star of stars", sent(hub(
        [hub([leaf(i % 16) for i in range(15)], up) for up in (0, 7, 15)] + [hub([leaf()], 3)]
        + [leaf(gap=i) for i in range(12)])))
    t.case("nodes 63", "two below each", sent(binary(6)))
    t.case("nodes 63", "58 leaves, and then no node to spare", pairs(
        prefix(58, 59), packets(59, "u" + "d" * 15), packets(60, "d" * 15 + "u"), packets(61, "dd" + "u" + "d" * 13),
        packets(62, "d" * 16)))
    t.case("nodes 3", "a note of 255 bytes", b"#" + b"x" * 254, three[:3], b"# " + b"y" * 253, three[3:])
    dice = Dice(1394)
    for count in (4, 7, 12, 33):
        t.case("nodes %d" % count, "at random", sent(random_cabling(dice, count)))


def too_short(t):
    t.case("void 32 at 0", "nothing at all, and the next reset follows at once")
    t.case("nodes 1", None, sent(LONE))
    t.case("void 32 at 1", "a packet without its inverse", [zero(0, "u..")])
    t.case("void 32 at 5", "the root's inverse is missing", sent(THREE)[:5])
    t.case("void 32 at 2", "between nodes", pairs(leaves(1)))
    t.case("void 32 at 124", "only the root is missing", sent(chain(63))[:124])
    t.case("void 32 at 2", "between packet zero and extension 0", EXT_DUE)
    t.case("void 32 at 5", "in the middle of extension 0", pairs(leaves(1)) + pairs(packets(1, "d..o...u"))[:3])


def stops_1_to_3(t):
    three = sent(THREE)
    t.case("void 1 at 2", "a second node behind a lone one", sent(LONE) + pairs(zero(1, "u..")))
    t.case("void 1 at 6", "the last inverse again, then bad lines", three + three[5:], b"bad", TOO_LONG, b" bad")
    t.case("void 1 at 378", "one word behind the longest announcement", sent(LONGEST), b"00000000")

    t.case("void 2 at 1", "bit 0 is off", [zero(0, "u.."), inverse(zero(0, "u..")) ^ 1] + three)
    t.case("void 2 at 5", "bit 31 is off in the last", three[:5] + [three[5] ^ 1 << 31], TOO_LONG, b"bad")
    t.case("void 2 at 3", "in extension 0", EXT_DUE + [ext(0, 0, "o......."), inverse(ext(0, 0, "........"))])
    t.case("void 2 at 5", "in extension 1", EXT1_DUE + [ext(0, 1, "....o"), ext(0, 1, "....o")])

    t.case("void 3 at 0", "00, and the same line goes on", b"00000000 807F4480 7F80BB7F", three)
    t.case("void 3 at 0", "01: the inverse comes first", three[1:])
    t.case("void 3 at 2", "11, with all bits set", pairs(leaves(1), 0xFFFFFFFF))
    t.case("void 3 at 4", "00, with a reserved bit set", three[:4] + pairs(three[4] ^ 1 << 31 | 1 << 13))


def stop_4(t):
    e0, e1 = ext(0, 0, "o......."), ext(0, 1, "o....")
    t.case("void 4 at 0", "bit 13 of packet zero", pairs(zero(0, "u..") | 1 << 13))
    t.case("void 4 at 2", "bit 12 of packet zero", pairs(leaves(1), zero(1, "ud.") | 1 << 12))
    t.case("void 4 at 4", "speed code 3", pairs(leaves(2), zero(2, "dd.", speed=3)))
    t.case("void 4 at 0", "bit 19 of extension 7 where packet zero is due", pairs(ext(0, 7, "o.......") | 1 << 19))
    t.case("void 4 at 2", "bit 19 of extension 0", EXT_DUE + pairs(e0 | 1 << 19))
    t.case("void 4 at 4", "bit 18 of extension 1", EXT1_DUE + pairs(e1 | 1 << 18))
    t.case("void 4 at 2", "bit 1 of extension 0", EXT_DUE + pairs(e0 | 1 << 1))
    t.case("void 4 at 4", "bit 7 of extension 1", EXT1_DUE + pairs(e1 | 1 << 7))
    t.case("void 4 at 4", "bit 2 of extension 1", EXT1_DUE + pairs(e1 | 1 << 2))
    t.case("void 4 at 0", "bit 4 of extension 1 where packet zero is due", pairs(e1 | 1 << 4))
    t.case("void 4 at 2", "bit 1 of extension 5, and number 1", EXT_DUE + pairs(ext(1, 5, "o.......") | 1 << 1))


def stops_5_and_6(t):
    t.case("void 5 at 0", "too high", pairs(zero(1, "u..")))
    t.case("void 5 at 0", "63, and an extension too", pairs(ext(63, 0, "o.......")))
    t.case("void 5 at 2", "too low", pairs(leaves(1), zero(0, "ud.")))
    t.case("void 5 at 2", "too high in extension 0", EXT_DUE + pairs(ext(1, 0, "o.......")))
    t.case("void 5 at 6", "too low in extension 1", pairs(leaves(1), zero(1, "u..", 1), ext(1, 0, "d.......", 1),
                                                          ext(0, 1, "o....")))

    t.case("void 6 at 2", "packet zero where extension 0 is due", EXT_DUE + pairs(zero(0, "u..")))
    t.case("void 6 at 4", "packet zero where extension 1 is due", EXT1_DUE + pairs(zero(0, "u..")))
    t.case("void 6 at 0", "extension 0 where packet zero is due", pairs(ext(0, 0, "u.......")))
    t.case("void 6 at 2", "extension 1 where packet zero is due", pairs(leaves(1), ext(1, 1, "u....")))
    t.case("void 6 at 2", "extension 1 where extension 0 is due", EXT_DUE + pairs(ext(0, 1, "o....")))
    t.case("void 6 at 4", "extension 0 again", EXT1_DUE + pairs(ext(0, 0, "o.......")))
    t.case("void 6 at 4", "extension 2 where extension 1 is due, all absent", EXT1_DUE + pairs(ext(0, 2, "........")))
    t.case("void 6 at 2", "extension 2 where extension 0 is due", EXT_DUE + pairs(ext(0, 2, ".....odu")))
    t.case("void 6 at 0", "extension 3 where packet zero is due", pairs(ext(0, 3, "oooooooo", 1)))
    for e in (4, 5, 6, 7):
        due = (EXT_DUE, EXT1_DUE)[e % 2]
        t.case("void 6 at %d" % len(due), "extension %d where extension %d is due" % (e, e % 2),
               due + pairs(ext(0, e, "ooooooo" + LETTERS[e % 4])))
    t.case("void 6 at 6", "extension 1 with more set", pairs(leaves(1), zero(1, "u..", 1), ext(1, 0, "d.......", 1),
                                                             ext(1, 1, "o....", 1)))
    t.case("void 6 at 4", "extension 1 with more set and a second up mark", EXT1_DUE + pairs(ext(0, 1, "....u", 1)))


def stops_7_to_10(t):
    nothing = "........"
    t.case("void 7 at 2", "extension 0", EXT_DUE + pairs(ext(0, 0, nothing)))
    t.case("void 7 at 4", "extension 1", EXT1_DUE + pairs(ext(0, 1, ".....")))
    t.case("void 7 at 4", "extension 0, and a loose end would stay", pairs(
        leaves(1), zero(1, "oo.", 1), ext(1, 0, nothing)))

    t.case("void 8 at 0", "in packet zero, with a down mark too", pairs(zero(0, "udu")))
    t.case("void 8 at 2", "in packet zero of a second node", pairs(leaves(1), zero(1, "uuu", 1)))
    t.case("void 8 at 2", "in packet zero and extension 0", EXT_DUE + pairs(ext(0, 0, ".......u")))
    t.case("void 8 at 4", "in packet zero and extension 1", EXT1_DUE + pairs(ext(0, 1, "....u")))

    t.case("void 9 at 0", "no node before", pairs(zero(0, "..d")))
    t.case("void 9 at 4", "three down marks for two", pairs(leaves(2), zero(2, "ddd", 1)))
    t.case("void 9 at 6", "in packet zero and extension 0", pairs(leaves(2), zero(2, "dd.", 1), ext(2, 0, "u......d")))
    t.case("void 9 at 6", "in extensions 0 and 1", pairs(leaves(1), packets(1, "u..d...........d")))
    t.case("void 9 at 124", "at the 63rd node, with an up mark", pairs(prefix(1, 62), zero(62, "udd")))

    t.case("void 10 at 2", "a second node that is alone", pairs(leaves(1), zero(1, "o..")))
    t.case("void 10 at 4", "one down mark for two", pairs(leaves(2), zero(2, "d..")))
    t.case("void 10 at 8", "in extension 0", pairs(leaves(3), zero(3, "d..", 1), ext(3, 0, "d.......")))
    t.case("void 10 at 10", "in extension 1", pairs(leaves(3), packets(3, "...........dd")))
    t.case("void 10 at 116", "behind 58 leaves", pairs(leaves(58), zero(58, "...")))


def stop_11(t):
    t.case("void 11 at 116", "the 59th leaf, then bad lines", pairs(leaves(59)), TOO_LONG, b"8080808", b"reset ")
    t.case("void 11 at 120", "the 59th node takes none in extension 1", pairs(
        leaves(58), packets(58, "u..............o")))
    t.case("void 11 at 122", "a leaf behind 58 leaves and a hub", pairs(
        leaves(58), packets(58, "d" * 15 + "u"), zero(59, "u..")))
    t.case("void 11 at 118", "packet zero of a hub that has to take 15", pairs(
        prefix(58, 59), packets(59, "udo" + "d" * 13)))
    t.case("void 11 at 120", "extension 0 of a hub that has to take 15", pairs(
        prefix(58, 59), packets(59, "d" * 10 + "." + "udddd")))
    t.case("void 11 at 122", "17 loose ends and one node to go", pairs(prefix(17, 61), zero(61, "ud.")))
    t.case("void 11 at 124", "a chain of 64", sent(chain(64)))
    t.case("void 11 at 124", "a 63rd node with an up mark and more to come", pairs(prefix(1, 62), zero(62, "u..", 1)))
    t.case("void 11 at 124", "packet zero of a root that has to take 16", pairs(
        prefix(16, 62), packets(62, "ddo" + "d" * 13)))
    t.case("void 11 at 126", "extension 0 of a root that has to take 14", pairs(
        prefix(14, 62), packets(62, "d.." + "d" * 7 + "o" + "d" * 5)))
    t.case("void 11 at 126", "a 63rd node with its up mark in extension 0", pairs(prefix(3, 62), packets(62, "dd.u")))


def trace_stops(t):
    three = sent(THREE)
    two = b"807F4480 7F80BB7F"
    for note, line in (
            ("two spaces", two.replace(b" ", b"  ")), ("a space in front", b" " + two), ("a space behind", two + b" "),
            ("7 digits", two[:-1]), ("9 digits", two + b"0"), ("the letter G", b"807F448G"),
            ("a tab", two.replace(b" ", b"\t")), ("a carriage return", two + b"\r"),
            ("`reset` and a space", b"reset "), ("`RESET`", b"RESET"), ("a space before a note", b" # note"),
            ("byte 0", b"807F448\0")):
        t.case("void 32 at 0", note, (21, line), two)
    for c in b"/:@`g":
        t.case("void 32 at 2", "byte %d among the digits" % c, three[:2],
               (21, b"817F8460 7E807B9" + bytes([c])), three[2:])
    t.case("void 32 at 3", "a bad line in the middle of a node", three[:3], b"# note", (21, b"reset 2"), three[3:],
           TOO_LONG)
    t.case("void 32 at 2", "a word that would spoil, and a bad one", three[:2], (21, b"00000000 0000000"))
    t.case("nodes 3", "a bad line behind a whole announcement", three, b"", (21, b"end"), b"00000000", TOO_LONG, b"bad")
    t.case("void 32 at 0", "255 bytes, malformed", (21, b"x" * 255))

    many = b" ".join(lines_of(sent(chain(20)), 1))
    t.case("void 32 at 0", "a note of 256 bytes", (20, b"#" + b"x" * 255), two)
    t.case("void 32 at 0", "29 words on a line", (20, many[:260]), many[261:512])
    t.case("void 32 at 2", "256 bytes of words, the last cut off", two, (20, many[:256]), b"bad")
    t.case("void 32 at 1", "`reset` and 251 spaces", two[:8], (20, b"reset" + b" " * 251), two[9:])
    t.case("nodes 3", "an overlong line behind a whole announcement", three, (20, TOO_LONG), b"bad", three)


def long_trace():
    t = Trace()
    front(t)
    for part in (buses, too_short, stops_1_to_3, stop_4, stops_5_and_6, stops_7_to_10, stop_11, trace_stops):
        part(t)
    t.case("nodes 11", "at random, and the last line has no line feed", sent(random_cabling(Dice(11), 11)))
    return t


# ---- the self-test

def same(n, number, nodes):
    """Whether the cabling n is what was read back from node `number` down."""
    read = nodes[number]
    children = {p: c for p, c in n["ports"].items() if isinstance(c, dict)}
    return ("".join(LETTERS[m] for m in read["marks"]) == letters(n)
            and all(read["fields"][name] == value for name, value in n["fields"].items())
            and read["children"].keys() == children.keys()
            and all(same(c, read["children"][p], nodes) for p, c in children.items()))


def test_both_ways():
    dice = Dice(2)
    for i in range(400):
        root = random_cabling(dice, 1 + i % 63)
        g = Gathering()
        for w in sent(root):
            assert not g.whole
            g.take(w)
            assert not g.spoiled, g.spoiled
        assert g.whole and len(g.nodes) == 1 + i % 63 and same(root, len(g.nodes) - 1, g.nodes)


@lru_cache(maxsize=None)
def small_announcements(count, root, world):
    """All announcements of so many nodes in a small world, each as packets of (marks, more)."""
    out = []
    ports = world[1]
    ends = list(itertools.accumulate(ports))
    for marks in itertools.product(range(4), repeat=sum(ports)):
        downs = marks.count(DOWN)
        if marks.count(UP) != (0 if root else 1):
            continue
        last = max(k for k in range(len(ports)) if k == 0 or any(marks[ends[k - 1]:]))
        own = tuple((marks[end - size:end], k < last) for k, (end, size) in enumerate(zip(ends, ports)) if k <= last)
        for split in itertools.product(range(1, count), repeat=downs):
            if sum(split) == count - 1:
                for below in itertools.product(*(small_announcements(s, False, world) for s in split)):
                    out.append(sum(below, ()) + own)
    return out


def test_small_world(world):
    """Tests 7 to 11 take exactly the beginnings of announcements: all packets are tried behind all that was taken."""
    most, ports = world
    whole = {a for count in range(1, most + 1) for a in small_announcements(count, True, world)}
    begun = {a[:k] for a in whole for k in range(len(a) + 1)}
    turned_away = set()

    def go_on(taken, finished, loose, before, due):
        for marks in itertools.product(range(4), repeat=ports[due]):
            for more in (False, True)[:1 if due + 1 == len(ports) else 2]:
                now = taken + ((marks, more),)
                stop = test_marks(finished, loose, before, due, marks, more, world)
                assert (stop == 0) == (now in begun), (now, stop)
                turned_away.add(stop)
                if stop == 0 and more:
                    go_on(now, finished, loose, before + marks, due + 1)
                elif stop == 0:
                    rooted = UP not in before + marks
                    assert rooted == (now in whole)
                    if not rooted:
                        go_on(now, finished + 1, loose - (before + marks).count(DOWN) + 1, (), 0)

    go_on((), 0, 0, (), 0)
    assert turned_away == {0, 7, 8, 9, 10, 11}
    return len(begun)


def needed(loose):
    """How many nodes so many loose ends need: a root takes up to 16, any other node turns up to 15 into one."""
    return 1 if loose <= 16 else 1 + needed(loose - 14)


def test_can_end():
    """The search against a count, everywhere: the node under way is the root, or takes as many as it still can."""
    for finished, due, ups in itertools.product(range(63), range(3), range(2)):
        for loose in range(finished + 1):
            for downs in range(min(loose, (0, 3, 11)[due] - ups) + 1):
                room = (16, 13, 5)[due]
                rooted = ups == 0 and loose - downs <= room
                left = loose - min(loose, downs + room - (1 - ups)) + 1
                fits = rooted or finished + 1 + needed(left) <= 63
                assert can_end(finished, loose, due, ups, downs) == fits, (finished, loose, due, ups, downs)


def test_trace():
    t = long_trace()
    data = t.data()
    assert len(data) < MOST_BYTES and not data.endswith(b"\n")
    heads = [line for line in expected(data) if line.startswith("reset")]
    for said, got in itertools.zip_longest(t.heads, heads):
        assert said == got, (said, got)
    assert expected(data + b"\n") == expected(data)


def test_sizes():
    assert expected(b"#" * 65536) == [] and expected(b"#" * 65537) == ["stop 23"]
    example = b"reset\n807F4480 7F80BB7F 817F8460 7E807B9F 827F88DE 7D807721\n"
    assert sent(THREE) == [int(w, 16) for w in example.split()[1:]]
    assert expected(example) == [
        "reset 1 nodes 3",
        "node 0 S200 gap 63 power 4 L-- u...............",
        "node 1 S400 gap 63 power 4 L-- ou..............",
        "node 2 S400 gap 63 power 0 LCI dod.............",
    ]


def self_test():
    test_sizes()
    test_both_ways()
    for world in ((4, (1, 1, 1)), (5, (2, 1)), (6, (1, 1)), (4, (1, 2))):
        print("small world", world, "beginnings", test_small_world(world))
    test_can_end()
    test_trace()
    print("ok")


def main(arguments):
    if arguments == ["--self-test"]:
        self_test()
    elif arguments == ["--trace"]:
        sys.stdout.buffer.write(long_trace().data())
    elif not arguments:
        sys.stdout.write("".join(line + "\n" for line in expected(sys.stdin.buffer.read())))
    else:
        sys.exit("usage: expected_treeprint.py [--trace | --self-test] < trace")


if __name__ == "__main__":
    sys.setrecursionlimit(10000)
    main(sys.argv[1:])
