#!/usr/bin/env python3
"""The lines that the program `vectors` must write, worked out without it.

UTF-8 is Python's own codec, the check sum a plain loop held to the published constants, a field a string with a caret,
lines the fewest that fit, from the back, growth whole-number arithmetic. The advances are those of the source's text.rs."""
import re
import sys

lines = []


def say(line):
    lines.append(line)


def heading(name):
    say("# " + name)


def spaced(data):
    return "".join(" %02x" % b for b in data)


# UTF-8


def is_scalar(code):
    return code <= 0x10FFFF and not 0xD800 <= code <= 0xDFFF


def encoded(code):
    return chr(code).encode("utf-8") if is_scalar(code) else b""


def length(code):
    """How many bytes a u32 has, a character or not: what Python's codec gives, surrogates let through, and 4 past the last character."""
    return len(chr(code).encode("utf-8", "surrogatepass")) if code <= 0x10FFFF else 4


def decoded(data):
    try:
        return data.decode("utf-8", "strict")
    except UnicodeDecodeError:
        return None


ADVANCES = [
    4, 4, 5, 7, 7, 12, 9, 2, 4, 4, 5, 8, 4, 4, 4, 4, 7, 7, 7, 7, 7, 7, 7, 7, 7, 7, 4, 4, 8, 8, 8, 7,
    13, 9, 9, 9, 9, 9, 8, 10, 9, 4, 7, 9, 7, 11, 9, 10, 9, 10, 9, 9, 8, 9, 9, 12, 9, 9, 8, 4, 4, 4, 6, 7,
    4, 7, 7, 7, 7, 7, 4, 7, 7, 3, 3, 7, 3, 11, 7, 7, 7, 7, 4, 7, 4, 7, 7, 9, 7, 7, 7, 4, 3, 4, 8,
]
assert len(ADVANCES) == 95


def measured(data):
    text = decoded(data)
    if text is None:
        return "refused 11"
    advance = {chr(32 + i): a for i, a in enumerate(ADVANCES)}
    return "width %d" % (65536 * sum(advance.get(ch, advance["?"]) for ch in text))


def yes(fact):
    return "yes" if fact else "no"


# What RFC 3629, section 7, prints.
EXAMPLES = [
    ("0041 2262 0391 002E", "41 E2 89 A2 CE 91 2E"),
    ("D55C AD6D C5B4", "ED 95 9C EA B5 AD EC 96 B4"),
    ("65E5 672C 8A9E", "E6 97 A5 E6 9C AC E8 AA 9E"),
    ("FEFF 233B4", "EF BB BF F0 A3 8E B4"),
]


def examples():
    heading("RFC 3629, section 7: the examples")
    for codes, data in EXAMPLES:
        ours = b"".join(encoded(int(c, 16)) for c in codes.split())
        assert ours == bytes.fromhex(data)
        say("%s ->%s, utf-8 %s" % (codes.lower(), spaced(ours), yes(decoded(ours) is not None)))


def boundaries():
    heading("The ends of the ranges of codes: the length by leading zeros, and what is written")
    for code in [
        0, 0x7F, 0x80, 0x7FF, 0x800, 0xD7FF, 0xD800, 0xDFFF, 0xE000, 0xFFFF, 0x10000, 0x10FFFF, 0x110000, 2**32 - 1,
    ]:
        data = encoded(code)
        assert not data or len(data) == length(code)
        say("%06x: length %d, written %d, bytes%s" % (code, length(code), len(data), spaced(data)))


STRINGS = [
    ("Ill-formed: tails and leads alone", False,
     ["80", "bf", "c3 a9 a9", "c3 41", "e2 82 41", "f0 9f 98 41", "c3 c3 a9"]),
    ("Ill-formed: cut short", False,
     ["c3", "e2", "e2 82", "f0", "f0 9f", "f0 9f 98"]),
    ("Ill-formed: good, then bad, and bad, then good", False,
     ["48 69 ff", "e2 82 ac 80", "80 48 69"]),
    ("Ill-formed: overlong, of 2, 3 and 4 bytes", False,
     ["c0 80", "c1 bf", "e0 80 80", "e0 9f bf", "f0 80 80 80", "f0 8f bf bf"]),
    ("Ill-formed: surrogates, and a pair of them", False,
     ["ed a0 80", "ed bf bf", "ed a0 bd ed b8 80"]),
    ("Ill-formed: above 10ffff, and bytes that start nothing", False,
     ["f4 90 80 80", "f5 80 80 80", "f8 88 80 80 80", "fc 84 80 80 80 80", "fe", "ff"]),
    ("Well-formed neighbours", True,
     ["", "00", "7f", "c2 80", "df bf", "e0 a0 80", "ed 9f bf", "ee 80 80", "ef bf bf", "f0 90 80 80", "f4 8f bf bf",
      "61 c3 a9 e2 82 ac f0 9f 98 80"]),
]


def strings():
    for name, well, rows in STRINGS:
        heading(name)
        for row in rows:
            data = bytes.fromhex(row)
            good = decoded(data) is not None
            assert good == well
            say("bytes%s: utf-8 %s, measure: %s" % (spaced(data), yes(good), measured(data)))


# The check sum


def fnv(data, state=0xCBF29CE484222325):
    for b in data:
        state = (state ^ b) * 0x100000001B3 % 2**64
    return state


# The reference list of FNV, 64 bits, form 1a.
PUBLISHED = [
    (b"", 0xCBF29CE484222325),
    (b"a", 0xAF63DC4C8601EC8C),
    (b"b", 0xAF63DF4C8601F1A5),
    (b"c", 0xAF63DE4C8601EFF2),
    (b"d", 0xAF63D94C8601E773),
    (b"e", 0xAF63D84C8601E5C0),
    (b"f", 0xAF63DB4C8601EAD9),
    (b"fo", 0x08985907B541D342),
    (b"foo", 0xDCB27518FED9D577),
    (b"foob", 0xDD120E790C2512AF),
    (b"fooba", 0xCAC165AFA2FEF40A),
    (b"foobar", 0x85944171F73967E8),
    (b"ch", 0x08A25607B54A22AE),
    (b"cho", 0xF5FAF0190CF90DF3),
    (b"chon", 0xF27397910B3221C7),
    (b"chong", 0x2C8C2B76062F22E0),
    (b"chongo", 0xE150688C8217B8FD),
]
PUBLISHED_WITH_ZERO = [
    (b"\0", 0xAF63BD4C8601B7DF),
    (b"a\0", 0x089BE207B544F1E4),
    (b"foobar\0", 0x34531CA7168B8F38),
]


def sums():
    heading("FNV-1a, 64 bits: the reference list")
    for data, published in PUBLISHED:
        assert fnv(data) == published, data
        say('"%s": %016x' % (data.decode(), published))
    heading("FNV-1a, 64 bits: the reference list, with a 0 at the end")
    for data, published in PUBLISHED_WITH_ZERO:
        assert fnv(data) == published, data
        say("bytes%s: %016x" % (spaced(data), published))
    heading("FNV-1a, 64 bits: numbers, lowest byte first")
    for size, x, order in [
        (4, 0, "little"),
        (4, 0x12345678, "little"),
        (4, 2**32 - 1, "little"),
        (4, 0x12345678, "big"),
        (8, 0, "little"),
        (8, 0x0123456789ABCDEF, "little"),
        (8, 2**64 - 1, "little"),
        (8, 0x0123456789ABCDEF, "big"),
    ]:
        ours, data = fnv(x.to_bytes(size, "little")), x.to_bytes(size, order)
        same = yes(ours == fnv(data))
        say("u%d %0*x: %016x, as bytes%s: %s" % (size * 8, size * 2, x, ours, spaced(data), same))
    both = (1).to_bytes(4, "little") + (2).to_bytes(8, "little")
    say("u32 00000001, u64 0000000000000002: %016x, as bytes%s: yes" % (fnv(both), spaced(both)))


# The field


class Field:
    """A text before the caret, a text behind it, the 64 bytes, of which those past the text stay as they were, and the mark."""

    def __init__(self):
        self.before, self.behind, self.store, self.mark = "", "", bytes(64), "untouched"

    def having(self, before, behind):
        other = Field()
        other.before, other.behind = before, behind
        text = (before + behind).encode("utf-8")
        other.store = text + self.store[len(text):]
        # Typed is what has another text than before.
        other.mark = self.mark if other.text() == self.text() else "typed"
        return other

    def marked(self, mark):
        other = self.having(self.before, self.behind)
        other.mark = mark
        return other

    def text(self):
        return self.before + self.behind

    def length(self):
        return len(self.text().encode("utf-8"))

    def caret(self):
        return len(self.before.encode("utf-8"))

    def insert(self, code):
        if not is_scalar(code) or self.length() + len(encoded(code)) > 64:
            return self
        return self.having(self.before + chr(code), self.behind)

    def backspace(self):
        return self.having(self.before[:-1], self.behind)

    def delete(self):
        return self.having(self.before, self.behind[1:])

    def left(self):
        return self.having(self.before[:-1], self.before[-1:] + self.behind)

    def right(self):
        return self.having(self.before + self.behind[:1], self.behind[1:])

    def home(self):
        return self.having("", self.text())

    def end(self):
        return self.having(self.text(), "")

    def place(self):
        return " at %d of %d" % (self.caret(), self.length())

    def state(self):
        assert len(self.store) == 64 and self.store.startswith(self.text().encode("utf-8"))
        return ": length %d, caret %d, mark %s, sum %016x" % (self.length(), self.caret(), self.mark, fnv(self.store))

    def shown(self):
        return '%s, "%s"' % (self.state(), self.text())


EDITS = ["backspace", "delete", "left", "right", "home", "end"]


def with_four(f, i):
    for first in (0x61, 0xE9, 0x20AC, 0x1F600):
        f = f.insert(first + i)
    return f


def filled(more):
    f = Field()
    for i in range(6):
        f = with_four(f, i)
    for _ in range(more):
        f = f.insert(ord("x"))
    assert f.length() == 60 + more
    return f


def at(f, n):
    f = f.home()
    for _ in range(n):
        f = f.right()
    return f


def insertion(f, code):
    say("insert %06x%s%s" % (code, f.place(), f.insert(code).shown()))


def edit(f, name):
    other = getattr(f, name)()
    say("%s%s%s" % (name, f.place(), other.shown()))
    return other


def fields():
    heading("Characters of each size, put into fields of 61 to 64 bytes")
    for more in (1, 2, 3, 4):
        f = filled(more)
        for g in (f.home(), at(f, 12), f.end()):
            for ch in "yß中𐍈":
                insertion(g, ord(ch))
    small = with_four(Field(), 0)
    heading("Codes that are no characters")
    for code in (0xD800, 0xDBFF, 0xDC00, 0xDFFF, 0x110000, 0xFFFFFFFF):
        insertion(at(small, 2), code)
    heading("Every edit of an empty field, and of one with a character of each size")
    for f in [Field()] + [at(small, n) for n in range(5)]:
        for name in EDITS:
            edit(f, name)
    full = filled(4)
    heading("Every edit of a full field")
    for n in (0, 12, 13, 14, 15, 28):
        for name in EDITS:
            edit(at(full, n), name)
    for name, f, edge in (("backspace", full.end(), "end"), ("delete", full.home(), "start")):
        heading("A full field, emptied from its %s" % edge)
        for _ in range(29):
            f = edit(f, name)
        assert f.length() == 0


def draught(spaces):
    f = Field()
    for ch in " " * spaces + "7.4":
        f = f.insert(ord(ch))
    assert metres(f.text()) == (0, 740)
    return f


def marks():
    for mark in ("confirmed", "untouched"):
        heading("Every edit of %s %s text" % ("an" if mark == "untouched" else "a", mark))
        for spaces, n in [(0, 0), (0, 1), (0, 3), (61, 0), (61, 62), (61, 64)]:
            f = at(draught(spaces), n).marked(mark)
            for name in EDITS:
                edit(f, name)
            insertion(f, ord("5"))
            insertion(f, 0xD800)


def asked():
    heading("Fields that break the rules, and some that keep them")
    four = with_four(Field(), 0)
    for name, f, length, caret, mark in [
        ("sound", four, 10, 3, "typed"),
        ("length above 64", four, 65, 3, "typed"),
        ("caret past the length", four, 10, 11, "typed"),
        ("caret inside a character", four, 10, 2, "typed"),
        ("text cut short", four, 9, 3, "typed"),
        ("confirmed metres", draught(0), 3, 3, "confirmed"),
        ("confirmed with no text", Field(), 0, 0, "confirmed"),
        ("confirmed text that is no metres", four, 10, 10, "confirmed"),
    ]:
        before, text = (decoded(f.store[:n]) for n in (caret, length))
        whole = length <= 64 and caret <= length and None not in (before, text)
        if whole and (mark != "confirmed" or metres(text)[0] == 0):
            g = f.having(before, text[len(before):]).marked(mark)
            left, typed = "0" + g.left().state(), "0" + g.insert(ord("y")).state()
            number = metres(text)[0]
        else:
            left = typed = "1: length %d, caret %d, mark %s, sum %016x" % (length, caret, mark, fnv(f.store))
            number = 1
        for lent in ("", " when lent"):
            say("%s, left%s gives %s" % (name, lent, left))
        for lent in ("", " when lent"):
            say("%s, insert%s gives %s" % (name, lent, typed))
        say("%s, metres gives %d" % (name, number))


# Metres and widths


def metres(text):
    number = text.strip(" ")
    if number == "":
        return 9, 0
    if not re.fullmatch(r"[0-9]{1,3}([.,][0-9]{1,2})?", number):
        return 10, 0
    whole, _, part = number.replace(",", ".").partition(".")
    return 0, int(whole) * 100 + int(part.ljust(2, "0"))


def readings():
    heading("Metres: the number of the answer, and centimetres")
    for text in ["", "0", "7", "7.4", "7.40", "007", "999.99", "1000", "7.", ".5", "7.405", "7,4", " 7", "7 ", "-1", "12a",
                 "12.3a", "7..4", "0.05", "7,40", "7,", ",5", ",", "7,405", "7,4.0", "7.4,0", "7,4,0", " ", "   ", " 7.4 ",
                 "  007,5 ", " 0 ", " 1000 ", "7. ", " ,5", "7 4", "7 .4", "7. 4", "7, 4", "\t", "\t7", "7\t"]:
        say('"%s": %d, %d' % ((text,) + metres(text)))
    assert metres("7.4") == metres("7.40") == (0, 740) and metres("7.") == metres("1000") == (10, 0)
    assert metres("7,40") == metres(" 7.4 ") == (0, 740) and metres("   ") == metres("") == (9, 0)
    for text in ["7 4", "7,", ",5", "7,4.0", "7 .4"]:
        assert metres(text) == (10, 0), text
    heading("Widths, in raw units")
    for text in ["", "Hi", "?", "é", "Hé€😀i", "".join(map(chr, range(32, 127)))]:
        say('"%s": %s' % (text, measured(text.encode("utf-8"))))
    assert measured(b"Hi") == "width %d" % (12 * 65536)


# Lines


ADVANCE = {chr(32 + i): a for i, a in enumerate(ADVANCES)}


def least_lines(widths, width):
    """The words that lines start with, in the fewest lines that fit; of all such choices, the one whose starts are the latest, the first deciding.

    From the back: for each word the fewest lines of what starts there, and the latest start of the next line."""
    best = [(0, None)] * (len(widths) + 1)
    for i in reversed(range(len(widths))):
        wide, choices = widths[i], []
        for j in range(i + 1, len(widths) + 1):
            if wide > width:
                break
            choices.append((1 + best[j][0], -j))
            wide += ADVANCE[" "] + (widths[j] if j < len(widths) else 0)
        count, j = min(choices)
        best[i] = count, -j
    starts, i = [], 0
    while i < len(widths):
        starts.append(i)
        i = best[i][1]
    # Each line is full: with the next word it would not fit.
    for i, j in zip(starts, starts[1:]):
        assert sum(widths[i:j + 1]) + ADVANCE[" "] * (j - i) > width
    assert len(starts) == best[0][0]
    return starts


def broken(data, width, room):
    """The number that refuses, or 0, and the starts in bytes."""
    text = decoded(data)
    if text is None:
        return 11, []
    if len(data) > 1024:
        return 13, []
    words = text.split(" ")
    widths = [sum(ADVANCE.get(ch, ADVANCE["?"]) for ch in word) for word in words]
    if max(widths) > width:
        return 12, []
    starts = least_lines(widths, width)
    if len(starts) > room:
        return 13, []
    return 0, [len(" ".join(words[:i] + [""]).encode("utf-8")) for i in starts]


ORDER = (
    "MV Vega: berth at Quai Érard, starboard side to. Two head lines and two stern lines ashore, "
    "then the springs. Draught 7.40 m, ramp 3.5 m. Keep the ramp up until 16:30."
)
TOP = 2**32 - 1
BROKEN = [
    ("Lines: the number of the answer, how many there are, and the lent places; a mooring order",
     [(ORDER, 120, 12), (ORDER, 200, 12), (ORDER, TOP, 2), (ORDER, 54, 32), (ORDER, 53, 3), (ORDER, 120, 10), (ORDER, 120, 9)]),
    ("Lines: exact fits, and a pixel less",
     [("Hi there", 45, 3), ("Hi there", 44, 3), ("Hi there", 29, 3), ("Hi there", 28, 3), ("there Hi", 28, 3), ("Hi", 12, 3),
      ("Hi", 11, 3), ("a b c d", 18, 5), ("a b c d", 17, 5), ("a b c d", 29, 5)]),
    ("Lines: no text, and spaces doubled, in front and behind",
     [("", 0, 2), (" ", 0, 3), (" ", 3, 3), (" ", 4, 3), ("   ", 0, 5), ("   ", 8, 5), ("   ", 12, 5), (" Hi", 16, 3),
      (" Hi", 15, 3), ("Hi ", 16, 3), ("Hi ", 15, 3), ("Hi  Hi", 32, 4), ("Hi  Hi", 31, 4), ("Hi  Hi", 15, 4)]),
    ("Lines: places are counted in bytes, and only a space breaks",
     [("é€ 😀", 25, 3), ("é€ 😀", 24, 3), ("é€ 😀", 13, 3), ("a\u00a0b", 21, 3), ("a\u00a0b", 20, 3), ("a\tb-c", 32, 3),
      ("a\tb-c", 31, 3)]),
    ("Lines: refused, the first reason first, and nothing written",
     [(b"Hi\xff", 0, 0), (b"Hi \xc3", 11, 2), ("Hi there", 28, 1), ("Hi there", 44, 1), ("Hi there", 44, 0), ("", 0, 0)]),
]
LONG = [
    ("1024 spaces", b" " * 1024, 0, 1025, 0),
    ("1024 spaces", b" " * 1024, 0, 1026, 0),
    ("1024 spaces", b" " * 1024, 0, 1024, 13),
    ("1024 spaces", b" " * 1024, 4095, 1026, 0),
    ("1024 spaces", b" " * 1024, 4096, 1026, 0),
    ("1025 spaces", b" " * 1025, 0, 1026, 13),
    ("1024 letters i", b"i" * 1024, 3072, 1026, 0),
    ("1024 letters i", b"i" * 1024, 3071, 1026, 12),
    ("1025 letters i", b"i" * 1025, 0, 0, 13),
    ("1024 letters i and a byte ff", b"i" * 1024 + b"\xff", 0, 0, 11),
]


def answered(data, width, room, size):
    """What is asked and answered, and a buffer of so many places, of which `room` are lent: each held 9999."""
    number, starts = broken(data, width, room)
    said = ", width %d, room %d: %d, %d, places" % (width, room, number, len(starts))
    return said, starts + [9999] * (size - len(starts))


def line_breaks():
    for name, rows in BROKEN:
        heading(name)
        for text, width, room in rows:
            data = text if isinstance(text, bytes) else text.encode("utf-8")
            shown = "bytes" + spaced(data) if isinstance(text, bytes) else '"%s"' % text
            said, places = answered(data, width, room, room)
            say(shown + said + "".join(" %d" % place for place in places))
    heading("Lines: as many bytes as there may be, and one more")
    for name, data, width, room, number in LONG:
        assert broken(data, width, room)[0] == number
        said, places = answered(data, width, room, 1026)
        say("%s%s %d .. %d %d" % (name, said, places[0], places[1024], places[1025]))
    assert broken(b"Hi there", 45, 1) == (0, [0]) and broken(b"Hi there", 44, 2) == (0, [0, 3])
    assert broken(b"", 0, 1) == (0, [0]) and broken(b"", 0, 0)[0] == broken(b"Hi there", 44, 1)[0] == 13
    assert broken(b"Hi there", 28, 0)[0] == 12 and broken(b"Hi there\xff", 28, 0)[0] == 11


# Growth


def shares(leftover, grows):
    total = sum(grows)
    if leftover <= 0 or total == 0:
        return [0] * len(grows)
    out = [leftover * g // total for g in grows]
    by_remainder = sorted(range(len(grows)), key=lambda i: (-(leftover * grows[i] % total), i))
    for i in by_remainder[: leftover - sum(out)]:
        out[i] += 1
    assert sum(out) == leftover
    return out


def growth():
    heading("Growth: the shares of a leftover")
    many = [(i * 7 + 3) % 11 for i in range(128)]
    top = 2**32 - 1
    rows = [
        ("P1: leftover 10, grows 1 1 1", 10, [1, 1, 1], 0),
        ("P2: leftover 7, grows 1 2 0", 7, [1, 2, 0], 0),
        ("P3: leftover 2^62, grows 2^32-1 1", 2**62, [top, 1], 0),
        ("P4: leftover 0, grows 1 1 1", 0, [1, 1, 1], 0),
        ("leftover -5, grows 1 2 3", -5, [1, 2, 3], 0),
        ("leftover 5, grows 0 0 0", 5, [0, 0, 0], 0),
        ("leftover 10, grows 1 2 and one that is not counted", 10, [1, 2], 1),
        ("leftover 11, grows 3 3 5", 11, [3, 3, 5], 0),
        ("leftover 2^63-1, grows 2^32-1 2^32-1 2^32-2", 2**63 - 1, [top, top, top - 1], 0),
        ("leftover 1000, 128 grows", 1000, many, 0),
        ("leftover 2^63-1, 128 grows", 2**63 - 1, many, 0),
        ("leftover 100, 128 grows of 2^32-1, count 200", 100, [top] * 128, 0),
    ]
    documented = [[4, 3, 3], [2, 5, 0], [2**62 - 2**30, 2**30], [0, 0, 0]]
    assert [shares(leftover, grows) for _, leftover, grows, _ in rows[:4]] == documented
    for name, leftover, grows, zeros in rows:
        say(name + ":" + "".join(" %d" % x for x in shares(leftover, grows) + [0] * zeros))


examples()
boundaries()
strings()
sums()
fields()
marks()
asked()
readings()
line_breaks()
growth()
sys.stdout.buffer.write("".join(line + "\n" for line in lines).encode("utf-8"))
