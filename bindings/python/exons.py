"""Prints the intervals of the exons of a GFF3 file, by the shared library: python3 exons.py LIBRARY FILE."""

import sys
from ctypes import CDLL, Structure, c_char_p, c_size_t, c_uint32, c_uint64, create_string_buffer


class Line(Structure):
    _fields_ = [("done", c_uint64)] + [(name, c_size_t) for name in ("start", "end", "next")]


class Unfolded(Structure):
    _fields_ = [("refused", c_uint64), ("length", c_size_t)]
    _fields_ += [("start", c_uint64), ("end", c_uint64), ("strand", c_uint32), ("phase", c_uint32)]


gff3 = CDLL(sys.argv[1])
for function, answer, *arguments in [
    (gff3.gff3_next_line, Line, c_char_p, c_size_t, c_size_t),
    (gff3.gff3_kind, c_uint32, c_char_p, c_size_t),
    (gff3.gff3_unfold, Unfolded, c_char_p, c_size_t, c_char_p, c_size_t),
    (gff3.gff3_reason, c_char_p, c_uint64),
]:
    function.restype, function.argtypes = answer, arguments
GFF3_KIND_RECORD = 2


def lines(text):
    """Each line, and its number: one more than the line feeds before it, those of blank lines among them."""
    number, counted = 1, 0
    line = gff3.gff3_next_line(text, len(text), 0)
    while not line.done:
        number, counted = number + text.count(b"\n", counted, line.start), line.start
        yield number, text[line.start : line.end]
        line = gff3.gff3_next_line(text, len(text), line.next)


def first_texts(sheet, count):
    """Column 1, source, type: each text of a sheet stands behind its count of bytes, which is four bytes."""
    at = 0
    for _ in range(count):
        end = at + 4 + int.from_bytes(sheet[at : at + 4], "little")
        yield sheet[at + 4 : end].decode(errors="replace")
        at = end


with open(sys.argv[2], "rb") as file:
    text = file.read()
sheet = create_string_buffer(1 << 20)
for number, line in lines(text):
    if gff3.gff3_kind(line, len(line)) != GFF3_KIND_RECORD:
        continue
    record = gff3.gff3_unfold(line, len(line), sheet, len(sheet))
    if record.refused:
        print(f"line {number}: {gff3.gff3_reason(record.refused).decode()}")
        continue
    name, _, feature = first_texts(sheet, 3)
    if feature == "exon":
        print(f"{name}: {record.start} to {record.end}")
