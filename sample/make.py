#!/usr/bin/env python3
"""make.py [FILE]: draws the sample font and writes it to FILE, press.ttf beside this script if not said.

The label printer's trap in ten glyphs: 1 to 4, a bar, and three fractions that own no outline of
their own but borrow two digits and the bar. Needs nothing but Python; the same bytes each time.
"""
import struct
import sys
from pathlib import Path

UNITS = 1000
STROKE = 110
NAMES = [".notdef", "space", "one", "two", "three", "four", "fraction", "onehalf", "onequarter", "threequarters"]
ONE, TWO, THREE, FOUR, BAR = 2, 3, 4, 5, 6
CODES = {0x20: 1, 0x31: ONE, 0x32: TWO, 0x33: THREE, 0x34: FOUR, 0x2044: BAR, 0xBD: 7, 0xBC: 8, 0xBE: 9}
TEXTS = {
    0: "Made for Pitavele. MIT OR Apache-2.0",
    1: "Pitavele Press",
    2: "Regular",
    3: "Pitavele Press 1",
    4: "Pitavele Press",
    5: "Version 1.000",
    6: "PitavelePress-Regular",
}


def box(left, bottom, right, top):
    """A filled rectangle: clockwise."""
    return [(left, bottom), (left, top), (right, top), (right, bottom)]


def digit(*strokes):
    """Strokes of a seven-segment digit, 500 wide and 700 high, as boxes that overlap at corners."""
    low, mid, high = 0, 350 - STROKE // 2, 700 - STROKE
    left, right = 60, 440
    places = {
        "top": box(left, high, right, 700),
        "middle": box(left, mid, right, mid + STROKE),
        "bottom": box(left, low, right, STROKE),
        "upper left": box(left, mid, left + STROKE, 700),
        "upper right": box(right - STROKE, mid, right, 700),
        "lower left": box(left, low, left + STROKE, mid + STROKE),
        "lower right": box(right - STROKE, low, right, mid + STROKE),
    }
    return [places[stroke] for stroke in strokes]


OUTLINES = {
    0: [box(60, 0, 440, 700), [(110, 50), (390, 50), (390, 650), (110, 650)]],
    ONE: digit("upper right", "lower right"),
    TWO: digit("top", "upper right", "middle", "lower left", "bottom"),
    THREE: digit("top", "upper right", "middle", "lower right", "bottom"),
    FOUR: digit("upper left", "upper right", "middle", "lower right"),
    BAR: [[(0, 0), (310, 700), (400, 700), (90, 0)]],
}
FRACTIONS = {7: (ONE, TWO), 8: (ONE, FOUR), 9: (THREE, FOUR)}
ADVANCES = [500, 300, 500, 500, 500, 500, 400, 800, 800, 800]


def simple(contours):
    points = [point for contour in contours for point in contour]
    ends, end = b"", -1
    for contour in contours:
        end += len(contour)
        ends += struct.pack(">H", end)
    # All on the curve, both coordinates as words; the first flag says that contours overlap.
    flags = bytes([0x41] + [0x01] * (len(points) - 1))
    xs, ys = [x for x, _ in points], [y for _, y in points]
    steps = b"".join(
        struct.pack(">h", now - before) for row in (xs, ys) for before, now in zip([0] + row, row)
    )
    head = struct.pack(">hhhhh", len(contours), min(xs), min(ys), max(xs), max(ys))
    return head + ends + struct.pack(">H", 0) + flags + steps


def composite(upper, lower):
    """A digit at half its size, raised; the bar; a digit at half its size on the line."""
    words, xy, scaled, more = 0x0001, 0x0002, 0x0008, 0x0020
    half = struct.pack(">H", 0x2000)  # 0.5 in 2.14
    raised, crossed, lowered = (20, 350), (200, 0), (530, 0)
    records = struct.pack(">HHhh", words | xy | scaled | more, upper, *raised) + half
    records += struct.pack(">HHhh", words | xy | more, BAR, *crossed)
    records += struct.pack(">HHhh", words | xy | scaled, lower, *lowered) + half
    left = min(raised[0] + leftmost(upper) // 2, crossed[0])
    return struct.pack(">hhhhh", -1, left, 0, 750, 700) + records


def leftmost(glyph):
    return min(x for contour in OUTLINES[glyph] for x, _ in contour)


def outline(glyph):
    if glyph in FRACTIONS:
        return composite(*FRACTIONS[glyph])
    return simple(OUTLINES[glyph]) if glyph in OUTLINES else b""


def bounds(text):
    return struct.unpack(">hhhh", text[2:10]) if text else None


def padded(text, to):
    return text + bytes(-len(text) % to)


def name_table():
    storage, records = b"", b""
    for number, text in TEXTS.items():
        string = text.encode("utf-16-be")
        records += struct.pack(">6H", 3, 1, 0x409, number, len(string), len(storage))
        storage += string
    return struct.pack(">3H", 0, len(TEXTS), 6 + len(records)) + records + storage


def post_table():
    text = struct.pack(">IiHHIIIII", 0x00020000, 0, 0xFF9C, 50, 0, 0, 0, 0, 0)
    text += struct.pack(">H", len(NAMES)) + b"".join(struct.pack(">H", 258 + i) for i in range(len(NAMES)))
    return text + b"".join(bytes([len(name)]) + name.encode() for name in NAMES)


def cmap_table():
    """One subtable of format 4, a segment for each code."""
    codes = sorted(CODES)
    segments = [(code, code, (CODES[code] - code) & 0xFFFF) for code in codes] + [(0xFFFF, 0xFFFF, 1)]
    count = len(segments)
    selector = count.bit_length() - 1
    span = 2 << selector
    column = lambda place: b"".join(struct.pack(">H", segment[place]) for segment in segments)
    body = struct.pack(">4H", 2 * count, span, selector, 2 * count - span)
    body += column(1) + bytes(2) + column(0) + column(2) + bytes(2 * count)
    subtable = struct.pack(">3H", 4, 6 + len(body), 0) + body
    return struct.pack(">HHHHI", 0, 1, 3, 1, 12) + subtable


def os2_table():
    text = struct.pack(">HhHHH", 4, sum(ADVANCES) // len(ADVANCES), 400, 5, 0)
    text += struct.pack(">10h", 650, 600, 0, 75, 650, 600, 0, 350, 50, 300) + struct.pack(">h", 0)
    text += bytes(10) + struct.pack(">4I", 0x00000003, 0, 0, 0) + b"PTVL"
    text += struct.pack(">3H", 0x0040, min(CODES), max(CODES))
    text += struct.pack(">hhhHH", 800, -200, 100, 800, 200) + struct.pack(">2I", 1, 0)
    return text + struct.pack(">hhHHH", 500, 700, 0, 0x20, 0)


def tables():
    outlines = [outline(glyph) for glyph in range(len(NAMES))]
    glyf, offsets = b"", [0]
    for text in outlines:
        glyf += padded(text, 2)
        offsets.append(len(glyf))
    boxes = [bounds(text) for text in outlines]
    drawn = [b for b in boxes if b]
    whole = [f(b[i] for b in drawn) for i, f in enumerate([min, min, max, max])]
    left = [b[0] if b else 0 for b in boxes]
    right = min(a - b[2] for a, b in zip(ADVANCES, boxes) if b)
    points = max(sum(map(len, o)) for o in OUTLINES.values())
    contours = max(map(len, OUTLINES.values()))
    parts = [[sum(map(len, OUTLINES[g])) for g in (a, BAR, b)] for a, b in FRACTIONS.values()]
    shapes = [[len(OUTLINES[g]) for g in (a, BAR, b)] for a, b in FRACTIONS.values()]
    made = 3_786_912_000  # 2024-01-01, in seconds since 1904
    return {
        b"OS/2": os2_table(),
        b"cmap": cmap_table(),
        b"glyf": glyf,
        b"head": struct.pack(
            ">IIIIHHqqhhhhHHhhh", 0x00010000, 0x00010000, 0, 0x5F0F3CF5, 0x0003, UNITS, made, made,
            *whole, 0, 8, 2, 0, 0
        ),
        b"hhea": struct.pack(
            ">IhhhHhhhhhh4hhH", 0x00010000, 800, -200, 100, max(ADVANCES), min(left), right, whole[2],
            1, 0, 0, 0, 0, 0, 0, 0, len(NAMES)
        ),
        b"hmtx": b"".join(struct.pack(">Hh", a, b) for a, b in zip(ADVANCES, left)),
        b"loca": b"".join(struct.pack(">H", offset // 2) for offset in offsets),
        b"maxp": struct.pack(
            ">I14H", 0x00010000, len(NAMES), points, contours, max(map(sum, parts)), max(map(sum, shapes)),
            2, 0, 0, 0, 0, 0, 0, 3, 1
        ),
        b"name": name_table(),
        b"post": post_table(),
    }


def word_sum(text):
    text = padded(text, 4)
    return sum(struct.unpack(f">{len(text) // 4}I", text)) & 0xFFFFFFFF


def file(contents):
    count = len(contents)
    selector = count.bit_length() - 1
    span = 16 << selector
    text = struct.pack(">I4H", 0x00010000, count, span, selector, 16 * count - span)
    body, start = b"", len(text) + 16 * count
    for tag, content in sorted(contents.items()):
        text += struct.pack(">4sIII", tag, word_sum(content), start + len(body), len(content))
        if tag == b"head":
            adjustment = start + len(body) + 8
        body += padded(content, 4)
    text += body
    value = (0xB1B0AFBA - word_sum(text)) & 0xFFFFFFFF
    return text[:adjustment] + struct.pack(">I", value) + text[adjustment + 4 :]


if __name__ == "__main__":
    place = Path(sys.argv[1]) if len(sys.argv) > 1 else Path(__file__).with_name("press.ttf")
    place.write_bytes(file(tables()))
