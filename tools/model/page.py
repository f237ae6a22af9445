"""A model of the recovery page, written from request 01 and document 01 alone.

The rows are those of recovery's model (recovery.py), laid out as docs/LAYOUTS.md has them."""
from recovery import recover
from wal import Refused

COLUMNS = 72
ROWS = 60 - 2  # of a full page, between its heading and its foot
INPUT = 65536
TABLES = [8 * 4096] * 4  # the words of each table, eight to a row


def line(text):
    """Filled with blanks up to the last column, which no text passes."""
    assert len(text) <= COLUMNS
    return text.ljust(COLUMNS) + "\n"


def row(position, kind, round_, author, *_):
    if kind == 2:
        return line("%13d %-8s %3s %20s" % (position, "payload", "", ""))
    return line("%13d %-8s %3d %20d" % (position, "block", author, round_))


def page(recovered):
    """The pages of an accepted recovery. With nothing pending there is one, of a heading and a foot."""
    pending, unprocessed, committed, _ = recovered.tables
    stop = recovered.stop.split()[0]
    foot = line("%13d %13d %13d %s" % (len(pending), len(unprocessed), len(committed), stop))
    rows = [row(*p) for p in pending]
    pages = [rows[i : i + ROWS] for i in range(0, len(rows), ROWS)] or [[]]
    return "".join(line("PENDING") + "".join(p) + foot for p in pages).encode()


def number_line(number):
    """All that a refused recovery prints."""
    return line("%13d" % number).encode()


def recovery_page(k, image, used, size, own, lent):
    """The refusal's number or 0, the page, and the rows that recovery leaves in its four tables: none after a refusal."""
    try:
        recovered = recover(k, image, used, size, own, lent)
    except Refused as x:
        return x.number, number_line(x.number), [[], [], [], []]
    return 0, page(recovered), recovered.tables


def input_page(data):
    """The page of the program's input: exponent, committee size and own authority, a byte each, then the image."""
    if len(data) > INPUT:
        return number_line(2)
    if len(data) < 3:
        return number_line(1)
    k, size, own = data[:3]
    image = data[3:]
    return recovery_page(k, image, len(image), size, own, TABLES)[1]
