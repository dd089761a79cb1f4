"""A PDF of one page that shows glyphs of one embedded font, each at its own place."""

SIDE = 600
COLUMNS = 8


def stream(data, more=b""):
    return b"<< /Length %d %s>>\nstream\n%s\nendstream" % (len(data), more, data)


def content(glyphs):
    """Glyph i stands in cell i of a grid, whatever its number in its font is."""
    cell = SIDE // COLUMNS
    lines = [b"BT /F 36 Tf"]
    for i, glyph in enumerate(glyphs):
        x = (i % COLUMNS) * cell + cell // 4
        y = SIDE - (i // COLUMNS + 1) * cell + cell // 4
        lines.append(b"1 0 0 1 %d %d Tm <%04X> Tj" % (x, y, glyph))
    return b"\n".join(lines + [b"ET"])


def document(font, glyphs):
    objects = [
        b"<< /Type /Catalog /Pages 2 0 R >>",
        b"<< /Type /Pages /Kids [3 0 R] /Count 1 >>",
        b"<< /Type /Page /Parent 2 0 R /MediaBox [0 0 %d %d] /Contents 4 0 R"
        b" /Resources << /Font << /F 5 0 R >> >> >>" % (SIDE, SIDE),
        stream(content(glyphs)),
        b"<< /Type /Font /Subtype /Type0 /BaseFont /AAAAAA+Font /Encoding /Identity-H"
        b" /DescendantFonts [6 0 R] >>",
        b"<< /Type /Font /Subtype /CIDFontType2 /BaseFont /AAAAAA+Font /FontDescriptor 7 0 R"
        b" /CIDSystemInfo << /Registry (Adobe) /Ordering (Identity) /Supplement 0 >>"
        b" /CIDToGIDMap /Identity >>",
        b"<< /Type /FontDescriptor /FontName /AAAAAA+Font /Flags 4 /FontBBox [0 0 1000 1000]"
        b" /ItalicAngle 0 /Ascent 800 /Descent -200 /CapHeight 700 /StemV 80 /FontFile2 8 0 R >>",
        stream(font, b"/Length1 %d " % len(font)),
    ]
    pdf = b"%PDF-1.7\n"
    places = []
    for number, body in enumerate(objects, 1):
        places.append(len(pdf))
        pdf += b"%d 0 obj\n%s\nendobj\n" % (number, body)
    table = len(pdf)
    pdf += b"xref\n0 %d\n0000000000 65535 f \n" % (len(objects) + 1)
    pdf += b"".join(b"%010d 00000 n \n" % place for place in places)
    pdf += b"trailer << /Size %d /Root 1 0 R >>\nstartxref\n%d\n%%%%EOF\n" % (len(objects) + 1, table)
    return pdf
