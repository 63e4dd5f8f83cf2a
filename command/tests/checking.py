"""What `gff3 check` refuses, and what it warns of."""

from desk import (
    GOOD,
    LONG,
    ROOM,
    ROOT,
    WARNINGS,
    arrows,
    call,
    called,
    got,
    hold,
    hold_call,
    names_said,
    put,
    refused_rows,
    row,
    said,
    summary_of,
    summed,
)

# ── refusals ──

# a line, the number of its refusal, the column, what is said of it, and its text as it is shown
REFUSED = [
    (b"x", 1, None, b"0 tabs", b"x"),
    (b" ", 1, None, b"0 tabs", b" "),
    (b"a\tb", 1, None, b"1 tab", "a→b".encode()),
    (b"a" + b"\t" * 7, 1, None, b"7 tabs", "a→→→→→→→".encode()),
    (row(start=b"0"), 2, 4, b"`0`", None),
    (row(start=b""), 2, 4, b"``", None),
    (row(start=b"x", end=b"y"), 2, 4, b"`x`", None),
    (row(start=b"18446744073709551616"), 2, 4, b"`18446744073709551616`", None),
    (row(end=b"13x"), 2, 5, b"`13x`", None),
    (row(end=b"x", score=b"x", strand=b"x", phase=b"x", rest=b"x"), 2, 5, b"`x`", None),
    (row(score=b"1."), 17, 6, b"`1.`", None),
    (row(strand=b"%2B"), 3, 7, b"`%2B`", None),
    (row(phase=b"3"), 4, 8, b"`3`", None),
    (row(rest=b"a=1;b"), 5, 9, b"`b`", None),
    (row(rest=b"a=1;;"), 5, 9, b"`;`", None),
    (row(rest=b"a=1; "), 5, 9, b"` `", None),
    (row(rest=b"\t"), 5, 9, "`→`".encode(), None),
    (row(rest=b"tagged"), 5, 9, b"`tagged`", None),
    (row(rest=b"n" * 31), 5, 9, b"`" + b"n" * 29 + "…`".encode(), None),
    (LONG, 25, None, b"", b""),
    (b"#" + LONG, 25, None, b"", b""),
]


def try_refusals(folder):
    """Each refusal, with the line's number, which counts blank lines, its column, its words and its text."""
    for line, by, column, what, text in REFUSED:
        shown_text = arrows(line) if text is None else text
        expected = said(4, by, column, what, shown_text) + summed(b"2 lines: 1 comment, 1 refused; 0 warnings", {by: 1})
        for before, ending in [(b"# a\n\n\r\n", b"\n"), (b"\r\n# a\r\n\n", b"\r\n")]:
            hold_call(["check"], 1, expected, text=before + line + ending)
    first = said(1, 2, 5, b"`.`", arrows(row(end=b".")), b"some file")
    last = said(9, 1, None, b"0 tabs", b"y", b"some file")
    counts = summed(b"4 lines: 2 records, 2 refused; 0 warnings", {1: 1, 2: 1}, b"some file")
    put(folder, "some file", row(end=b".") + b"\n" + GOOD + b"\n" * 5 + GOOD + b"y\r\n")
    hold_call(["check", "some file"], 1, first + last + counts, cwd=folder)
    # the longest line, and the shortest that is too long; a CR behind which no line feed comes is of the line
    cases = [(b"\n", 1), (b"\r\n", 1), (b"\r\r\n", 25), (b"\r", 25), (b"x\n", 25)]
    for ending, by in cases:
        hold_call(["check", "--off", "cut"], 1, [b"<stdin>:1: refused by %d: " % by], text=b"x" * ROOM + ending)


# ── warnings ──

# a warning, a line that has it and nothing else, the column and what is said of it
WARNED = [
    (b"tag-semicolon", row(rest=b"a=1;;b=2"), 9, b"`;b`"),
    (b"tag-semicolon", row(rest=b"complete;transl_table=1"), 9, b"`complete;transl_table`"),
    (b"tag-semicolon", row(rest=b"a=1;b;c=2;d;e=3"), 9, b"`b;c`"),
    (b"tag-space", row(rest=b"a=1; b=2"), 9, b"` b`"),
    (b"tag-space", row(rest=b"a =1"), 9, b"`a `"),
    (b"extra-columns", row(rest=b"a=1\tb"), 9, b"10 of them"),
    (b"extra-columns", row(rest=b"a=1\t\t\tb"), 9, b"12 of them"),
    (b"reversed", row(start=b"14"), 4, b"14, 13"),
    (b"phase-missing", row(type=b"CDS"), 8, b""),
    (b"phase-missing", row(type=b"%43DS"), 8, b""),
    (b"gtf", row(rest=b'gene_id "x"; class_code "="'), 9, b'`gene_id "x"; class_code "`'),
    (b"gtf", row(rest=b'a=1; gene_id "x=y"'), 9, b'` gene_id "x`'),
    (b"percent", row(rest=b"a=100%"), None, b"`%`"),
    (b"percent", row(rest=b"a=%zz"), None, b"`%zz`"),
    (b"percent", row(name=b"s%4"), None, "`%4→`".encode()),
    (b"utf8", row(rest=b"a=\xff"), None, b"\\xff"),
    (b"utf8", row(source=b"\xe3\x82"), None, b"\\xe3"),
    (b"utf8", b"# \xc3(", None, b"\\xc3"),
    (b"utf8", b"##x \x80", None, b"\\x80"),
    (b"directive", b"##sequence-region ctg 1", None, b"the region has no end"),
    (b"directive", b"##sequence-region ctg 0 5", None, b"the region's start is not a position"),
    (b"directive", b"##sequence-region", None, b"the text of a version, a region or a build is empty"),
    (b"directive", b"##genome-build NCBI", None, b"the build has no name"),
    (b"directive", b"##gff-version 2", None, b"gff-version 2"),
    (b"directive", b"##gff-version", None, b"the text of a version, a region or a build is empty"),
    (b"directive", b"##gff-version three", None, b"the version's major part is not a number"),
]

FINE = [
    row(),
    row(rest=b"."),
    row(rest=b""),
    row(rest=b"="),
    row(rest=b"a="),
    row(rest=b"a=1;"),
    row(rest=b"a=two words, and three"),
    row(rest=b"a=x%2Cy;b=%3b%3D%26;c=x,y"),
    row(rest="a=café;b=アラビド".encode()),
    row(rest=b"two words=1"),
    row(rest=b'Note=said "gene_id";b="x"'),
    row(rest=b'Note=gene_id "x"'),
    row(start=b"13"),
    row(start=b"0001", end=b"18446744073709551615"),
    row(score=b"-1.50e-07", strand=b"?", phase=b"2"),
    row(type=b"CDS", phase=b"0"),
    row(type=b"cds"),
    row(name=b"%23x", source=b"", type=b"SO:0000704"),
    b"#",
    b"# a\tb % \x00",
    b"#!genome-build x",
    b"##",
    b"###",
    b"##FASTA",
    b"##gff-version 3",
    b"##gff-version 3.1.26",
    b"##gff-version \t 3  ",
    b"##sequence-region ctg123 1 1497228",
    b"##sequence-region  ctg123  +1 0005 more",
    b"##genome-build NCBI B36",
    b"##species x",
    b"##sequence-regions",
]


def kind(line):
    return b"directive" if line.startswith(b"##") else b"comment" if line.startswith(b"#") else b"record"


def try_warnings(folder):
    """Each warning, alone; switched off it is neither said nor counted. And lines that give none."""
    for name, line, column, what in WARNED:
        sentence = b"1 line: 1 %s, 0 refused; " % kind(line)
        expected = said(1, name, column, what) + summed(sentence + b"1 warning", {name: 1})
        hold_call(["check"], 0, expected, text=line + b"\n")
        # GTF that is switched off leaves what is strange in its tags, which try_gtf holds
        if name != b"gtf":
            hold_call(["check", "--off", name], 0, summed(sentence + b"0 warnings"), text=line + b"\n")
    for line in FINE:
        for ending in [b"\n", b"\r\n"]:
            hold_call(["check"], 0, summed(b"1 line: 1 %s, 0 refused; 0 warnings" % kind(line)), text=line + ending)
    for line, sentence in [(b"#", b"1 line: 1 comment, 0 refused; "), (row(), b"1 line: 1 record, 0 refused; ")]:
        unended = said(1, b"cut", None, b"the last line has no line feed")
        hold_call(["check"], 0, unended + summed(sentence + b"1 warning", {b"cut": 1}), text=line)
        hold_call(["check", "--off", "cut"], 0, summed(sentence + b"0 warnings"), text=line)


def try_many_warnings(folder):
    """A line that has many, and each choice of those that are off."""
    line = row(type=b"CDS", start=b"14", rest=b"a=1;;b=100%; c=\t\xff")
    all_of_it = [b"tag-semicolon", b"tag-space", b"extra-columns", b"reversed", b"phase-missing", b"percent", b"utf8", b"cut"]
    choices = [
        [],
        ["--off", "reversed"],
        ["--off", "reversed,percent"],
        ["--off", "reversed", "--off", "percent"],
        ["--off=tag-semicolon,utf8", "--off", "cut", "--off=tag-space,cut"],
        ["--off", ",".join(name.decode() for name in WARNINGS)],
    ]
    for choice in choices:
        off = ",".join(choice).replace("=", ",").split(",")
        expected = [name for name in all_of_it if name.decode() not in off]
        done = call(["check", "--format", "tsv", *choice], line)
        hold(called(["check", "--format", "tsv", *choice], line), (done.status, sorted(names_said(done))), (0, sorted(expected)))
    # one value for each option: the next word is a file
    put(folder, "percent", b"x\n")
    hold_call(["check", "--off", "cut", "percent"], 1, [b"percent:1: refused by 1"], cwd=folder)
    # of one line each is given once
    twice = row(rest=b"a=1;;b=%;;c=%; d=1; e=1")
    done = call(["check", "--format", "tsv"], twice + b"\n" + twice + b"\n")
    hold("a line with the same strange things twice", names_said(done), [b"tag-semicolon", b"tag-space", b"percent"] * 2)


def try_gtf(folder):
    """A file of GTF is said once; a line like it in a file of GFF3 by itself."""
    line = row(rest=b'gene_id "x"; transcript_id "x.1";') + b"\n"
    readable = row(rest=b'gene_id "x"; class_code "=";') + b"\n"
    first = said(2, b"gtf", 9, b'`gene_id "FLC1";`')
    sentence = b"7 lines: 1 comment, 6 refused; 1 warning"
    mistaken = got(ROOT, "examples/mistaken.gff3")
    hold_call(["check"], 1, first + summed(sentence, {5: 6, b"gtf": 1}), text=mistaken)
    done = hold_call(["check", "--format", "tsv", "--off", "gtf"], 1, text=mistaken)
    hold("GTF, switched off", refused_rows(done), [(number, 5) for number in range(2, 8)])
    table = [
        (line * 3, [b"gtf"], {"refused": 3}),
        (line + readable + line, [b"gtf"], {"refused": 2, "records": 1}),
        (readable * 2, [b"gtf"], {"records": 2}),
        (GOOD + line * 2, [b"5", b"5"], {"records": 1, "refused": 2}),
        (GOOD + readable * 2 + GOOD, [b"gtf", b"gtf"], {"records": 4}),
        (line + GOOD + line, [b"gtf", b"5"], {"records": 1, "refused": 2}),
        (line + row(start=b"x") + b"\n" + line, [b"gtf", b"2"], {"refused": 3}),
        (b"##gff-version 3\n#a\n" + line, [b"gtf"], {"refused": 1, "directives": 1, "comments": 1}),
    ]
    for text, names, counts in table:
        done = call(["check", "--format", "tsv"], text)
        hold(called(["check", "--format", "tsv"], text), names_said(done), names)
        summary = summary_of(call(["check", "--format", "json"], text))
        kinds = {name: summary.get(name) for name in ["records", "directives", "comments", "refused"]}
        hold(f"the counts of {text!r}", {name: count for name, count in kinds.items() if count != 0}, counts)
    for rest, name in [(b'gene_id "x"; class_code "="', b"tag-semicolon"), (b'a=1; gene_id "x=y"', b"tag-space")]:
        done = call(["check", "--off", "gtf", "--format", "tsv"], row(rest=rest) + b"\n")
        hold(f"{rest!r} with GTF switched off", (done.status, names_said(done)), (0, [name]))
    # GTF stands for what is strange in tags, and not for the rest
    done = call(["check", "--format", "tsv"], row(start=b"14", rest=b'gene_id "x"; class_code "=";') + b"\n")
    hold("a reversed record that looks like GTF", sorted(names_said(done)), [b"gtf", b"reversed"])


def try_fasta(folder):
    """Sequence is said once, and is not refused."""
    text = b"##FASTA\n>x\nACGT\nAC\n"
    first = said(2, b"fasta")
    sentence = b"4 lines: 1 directive, 3 lines of sequence, 0 refused; 1 warning"
    hold_call(["check"], 0, first + summed(sentence, {b"fasta": 1}), text=text)
    rows = [said(number, 1, None, b"0 tabs", line) for number, line in [(2, b">x"), (3, b"ACGT"), (4, b"AC")]]
    counts = summed(b"4 lines: 1 directive, 3 refused; 0 warnings", {1: 3})
    hold_call(["check", "--off", "fasta"], 1, b"".join(rows) + counts, text=text)
    bare = said(2, b"fasta") + summed(b"3 lines: 1 record, 2 lines of sequence, 0 refused; 1 warning", {b"fasta": 1})
    hold_call(["check"], 0, bare, text=GOOD + b">x\nAC\n")
    one = said(2, b"fasta") + summed(b"2 lines: 1 directive, 1 line of sequence, 0 refused; 1 warning", {b"fasta": 1})
    hold_call(["check"], 0, one, text=b"##FASTA\r\n>x\r\n")
    hold_call(["check"], 0, one, text=b"##FASTA \n" + LONG + b"\n", what="a sequence in one long line")
    table = [
        (b"AC\n##FASTA\nAC\n", [b"1", b"fasta"]),
        (b"##FASTA\n" + row(start=b"x") + b"\nAC\n", [b"2", b"fasta"]),
        (b"##FASTA\n" + GOOD, []),
        (b"##FASTAS\nAC\n", [b"1"]),
        (b"#FASTA\nAC\n", [b"1"]),
        (b">x\t\t\t\t\t\t\t\t\nAC\n", [b"2", b"1"]),
    ]
    for text, names in table:
        done = call(["check", "--format", "tsv"], text)
        hold(called(["check", "--format", "tsv"], text), names_said(done), names)
