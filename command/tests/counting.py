"""`gff3 count`."""

import json
import random

from desk import GOOD, LONG, REWRITE, ROOM, STDIN, call, hold, hold_call, put, row, shown

EXAMPLE = (
    b"##gff-version 3\n# a gene and its exons\n\n"
    b"chr1\tlab\tgene\t1050\t9000\t.\t+\t.\tID=gene%2c1;Name=EDEN\n"
    b"chr1\tlab\texon\t1050\t1500\t.\t+\t.\tParent=gene%2c1\n"
    b"chr1\tlab\texon\t7000\t9000x\t.\t+\t.\tParent=gene%2c1\n"
)
SHEET = b"""example.gff3
records            2
  reversed         0
directives         1
comments           1
refused            1
  by 2             1  not a position, or a position of zero
lines              5
sum of lengths  8402
  256 to 511       1  ########################################
  4096 to 8191     1  ########################################
"""
EMPTY_SHEET = b"""<stdin>
records         0
  reversed      0
directives      0
comments        0
refused         0
lines           0
sum of lengths  0
"""
NUMBERS = [1, 2, 3, 4, 5, 17, 24, 25]
COUNTED = ["records", "reversed", "directives", "comments", "refused", *(f"refused_{number}" for number in NUMBERS), "lines", "sum"]
COUNTED += [f"lengths_{power}" for power in range(64)]


def counted(text):
    """The counts of a text, by the reference."""
    counts = dict.fromkeys(COUNTED, 0)
    for line in REWRITE.lines(text):
        answer = 25 if len(line) > ROOM else line if line.startswith(b"#") else REWRITE.record(line)
        counts["lines"] += 1
        if answer in NUMBERS:
            counts["refused"] += 1
            counts[f"refused_{answer}"] += 1
        elif line.startswith(b"#"):
            counts["directives" if line.startswith(b"##") else "comments"] += 1
        else:
            start, end = map(int, line.split(b"\t")[3:5])
            counts["records"] += 1
            counts["reversed"] += start > end
            if start <= end:
                counts["sum"] += end - start + 1
                counts[f"lengths_{(end - start + 1).bit_length() - 1}"] += 1
    return counts


def rows_counted(done):
    """The rows of `count --format tsv`, each with the name of the file."""
    head, *rows = [line.split("\t") for line in done.out.decode().split("\n")[:-1]]
    return [(row[0], dict(zip(head[1:], map(int, row[1:])))) for row in rows] if head == ["file", *COUNTED] else head


def objects_counted(done):
    """The same of `count --format json`."""
    found = []
    for line in done.out.splitlines():
        row = json.loads(line)
        row.update({f"refused_{number}": count for number, count in row.pop("refused_by").items()})
        row.update({f"lengths_{power}": count for power, count in enumerate(row.pop("lengths"))})
        found.append((row.pop("file"), row))
    return found


def try_sheets(folder):
    """The sheet as README.md shows it, and several of them."""
    put(folder, "example.gff3", EXAMPLE)
    put(folder, "empty", b"")
    empty = EMPTY_SHEET.replace(STDIN, b"empty")
    hold_call(["count", "example.gff3"], 1, SHEET, cwd=folder)
    hold_call(["count"], 1, SHEET.replace(b"example.gff3", STDIN), text=EXAMPLE)
    hold_call(["count", "example.gff3", "empty", "example.gff3"], 1, SHEET + b"\n" + empty + b"\n" + SHEET, cwd=folder)
    hold_call(["count", "empty", "empty"], 0, empty + b"\n" + empty, cwd=folder)
    hold_call(["count", "no", "example.gff3"], 2, SHEET, [b"gff3: no: No such file"], cwd=folder)
    for text in [b"", b"\n", b"\r\n\n"]:
        hold_call(["count"], 0, EMPTY_SHEET, text=text)
    bars = b"".join(row(start=b"1", end=b"%d" % end) + b"\n" for end in [1] * 80 + [2] * 40 + [3, 4])
    sheet = [
        b"<stdin>\nrecords         122\n  reversed        0\n",
        b"sum of lengths  167\n  1              80  ########################################\n",
        b"  2 to 3         41  ####################\n  4 to 7          1  #\n",
    ]
    hold_call(["count"], 0, sheet, text=bars)


def try_counts(folder):
    """Counts for machines, held to the reference, and adding up."""
    r = random.Random(5)
    made = b"\n".join(REWRITE.made(r) for _ in range(1500))
    # lines that are too long; a CR behind which no line feed comes, and one behind which another does
    texts = [EXAMPLE, b"", made, LONG + b"\n#" + LONG + b"\r\n##" + LONG[2:], b"x\r", b"#\r", row() + b"\r", row(phase=b".\r") + b"\r"]
    texts += [b"\r", b"\r\r\n", b"\r\n\r", b"x" * ROOM + b"\r", b"x" * ROOM + b"\r\r\n", row(start=b"14") + b"\r\r\n" + GOOD]
    texts += [row(start=b"1", end=b"18446744073709551615") + b"\n", row(start=b"14") + b"\n" + row(start=b"13")]
    names = [f"{number}.gff3" for number in range(len(texts))]
    for name, text in zip(names, texts):
        put(folder, name, text)
    expected = [(name, counted(text)) for name, text in zip(names, texts)]
    for style, read in [("tsv", rows_counted), ("json", objects_counted)]:
        done = call(["count", "--format", style, *names], cwd=folder)
        found = read(done)
        hold(f"count --format {style}", (done.status, done.err, [name for name, _ in found]), (1, b"", names))
        for (name, came), (_, counts), text in zip(found, expected, texts):
            hold(f"count --format {style}, {shown(text, 100)}", came, counts)
            lengths = sum(came[f"lengths_{power}"] for power in range(64))
            sums = came["records"] + came["directives"] + came["comments"] + came["refused"], lengths + came["reversed"]
            hold(f"sums of --format {style}, {shown(text, 100)}", sums, (came["lines"], came["records"]))


def try_sum(folder):
    """Lengths that add up to more than 64 bits hold are refused, 26, and other files are counted."""
    full = row(start=b"1", end=b"18446744073709551615") + b"\n"
    put(folder, "full", full + row(start=b"1", end=b"1") + b"\n")
    put(folder, "apart", full + b"#\n" * 200000 + full)
    put(folder, "example.gff3", EXAMPLE.replace(b"9000x", b"9000"))
    for name in ["full", "apart"]:
        err = b"gff3: %s: the lengths add up to more than 18446744073709551615 (refusal 26)\n" % name.encode()
        hold_call(["count", name], 1, b"", err, cwd=folder)
        done = hold_call(["count", "--format", "json", name, "example.gff3"], 1, None, err, cwd=folder)
        hold("the other file", [(file, row["records"], row["sum"]) for file, row in objects_counted(done)], [("example.gff3", 3, 10403)])
        hold_call(["count", "--format", "tsv", name], 1, "\t".join(["file", *COUNTED]).encode() + b"\n", err, cwd=folder)
    hold_call(["count", "full", "no"], 2, b"", None, cwd=folder)
