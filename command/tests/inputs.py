"""What is read: packed files, files that cannot be read, names, closed streams, permissions."""

import bz2
import gzip
import lzma
import os
import random
import shutil
import struct
import subprocess
import zlib

from cases import rewritten
from counting import rows_counted
from desk import (
    ENVIRONMENT,
    GOOD,
    REWRITE,
    call,
    command,
    cut,
    hold,
    hold_call,
    hold_done,
    in_pieces,
    left_out,
    names_said,
    put,
    row,
    said,
    summary_of,
    summed,
)
from outputs import FROM, TO, hold_files, mode

BGZIP_END = bytes.fromhex("1f8b08040000000000ff0600424302001b0003000000000000000000")


def bgzip_block(text):
    """A member of gzip that tells its own length, as bgzip writes it."""
    packer = zlib.compressobj(6, zlib.DEFLATED, -15)
    body = packer.compress(text) + packer.flush()
    head = struct.pack("<4BI2BH2BHH", 31, 139, 8, 4, 0, 0, 255, 6, 66, 67, 2, len(body) + 25)
    return head + body + struct.pack("<2I", zlib.crc32(text), len(text))


def bgzip(text, size=60000):
    return b"".join(bgzip_block(piece) for piece in cut(text, size))


def named_gzip(text, flags):
    """With fields that a header may have: by 4 an extra one, by 8 a name, by 16 a comment, and by 2 a checksum of all before it."""
    head = b"\x1f\x8b\x08%c\0\0\0\0\0\xff" % flags
    head += b"\x04\0XX\0\0" if flags & 4 else b""
    head += b"a name\0" if flags & 8 else b""
    head += b"a comment\0" if flags & 16 else b""
    head += struct.pack("<H", zlib.crc32(head) & 0xFFFF) if flags & 2 else b""
    return head + gzip.compress(text)[10:]


def try_packed(folder):
    """What gzip and bgzip have packed is unpacked, by its first bytes."""
    r = random.Random(6)
    text = b"\n".join(REWRITE.made(r) for _ in range(400)) + b"\n"
    expected, status = rewritten(text)
    packed = {
        "plain": text,
        "gzip": gzip.compress(text),
        "stored": gzip.compress(text, 0),
        "named": named_gzip(text, 4 | 8 | 16),
        "members": b"".join(gzip.compress(piece) for piece in cut(text, 97)),
        "empty members": gzip.compress(b"") + gzip.compress(text) + gzip.compress(b"") * 3,
        "bgzip": bgzip(text) + BGZIP_END,
        "small blocks": bgzip(text, 501) + BGZIP_END,
        "bgzip twice": (bgzip(text[:1000]) + BGZIP_END) + bgzip(text[1000:]) + BGZIP_END,
    }
    for name, data in packed.items():
        put(folder, name, data)
        hold_call(["rewrite", "-q", name], status, expected, cwd=folder)
        hold_done(f"rewrite <{name}", call(["rewrite", "-q"], data), status, expected)
        summary = summary_of(call(["check", "--format", "json", "--max", "0", name], cwd=folder))
        found = [summary.get("lines"), summary.get("warnings", {}).get("cut")]
        hold(f"the lines of {name}, and no end missing", found, [len(REWRITE.lines(text)), None])
    hold_done("gzip, in pieces", in_pieces(["rewrite", "-q"], cut(packed["members"], 1001)), status, expected)
    first = [packed["bgzip"][at : at + 1] for at in range(40)]
    hold_done("bgzip, by bytes", in_pieces(["rewrite", "-q"], first + [packed["bgzip"][40:]], 0.001), status, expected)
    for name in ["gzip", "bgzip"]:
        hold_call(["count", name], 1, cwd=folder)


def try_cut_bgzip(folder):
    """A bgzip file without its last block is whole by gzip's rules, and said to be cut."""
    text = GOOD + b"\n#\n"
    unended = said(3, b"cut", None, b"the last block of bgzip is missing", file=b"cut.gz")
    counts = summed(b"2 lines: 1 record, 1 comment, 0 refused; 1 warning", {b"cut": 1}, b"cut.gz")
    put(folder, "cut.gz", bgzip(text))
    hold_call(["check", "cut.gz"], 0, unended + counts, cwd=folder)
    hold_call(["rewrite", "cut.gz"], 0, GOOD + b"#\n", unended, cwd=folder)
    none = summed(b"2 lines: 1 record, 1 comment, 0 refused; 0 warnings", {}, b"cut.gz")
    hold_call(["check", "--off", "cut", "cut.gz"], 0, none, cwd=folder)
    put(folder, "cut.gz", bgzip(text) + BGZIP_END)
    hold_call(["check", "cut.gz"], 0, none, cwd=folder)
    put(folder, "cut.gz", gzip.compress(text))
    hold_call(["check", "cut.gz"], 0, none, cwd=folder, what="gzip has no such block")
    put(folder, "cut.gz", BGZIP_END)
    hold_call(["check", "cut.gz"], 0, summed(b"0 lines: 0 refused; 0 warnings", {}, b"cut.gz"), cwd=folder)
    # one that was cut between two blocks, in the middle of a line
    put(folder, "cut.gz", bgzip(text, 20)[: len(bgzip_block(text[:20]))])
    done = call(["check", "--format", "tsv", "cut.gz"], cwd=folder)
    hold("bgzip, cut between two blocks", names_said(done), [b"1", b"cut"])


def damaged():
    """Packed data that cannot be unpacked to its end: a name for it, the data, what is said of it, and whether a line comes out first."""
    text = b"x\n" + random.Random(7).randbytes(200000).hex().encode() + b"\n"
    whole = gzip.compress(text)
    wrong = bytearray(whole)
    wrong[len(wrong) // 2] ^= 0xFF
    early, broken = b"the gzip data ends too early: the file is cut off", b"the gzip data is damaged"
    return [
        ("half", whole[: len(whole) // 2], early, True),
        ("no trailer", whole[:-8], early, True),
        ("no length", whole[:-1], early, True),
        ("a header", whole[:10], early, False),
        ("two bytes", whole[:2], early, False),
        ("half a second member", whole + whole[:20000], early, True),
        ("half a second header", whole + whole[:5], early, True),
        ("half a block of bgzip", bgzip(text)[:70000], early, True),
        ("a byte", bytes(wrong), broken, True),
        ("a checksum", whole[:-8] + bytes(4) + whole[-4:], broken, True),
        ("a length", whole[:-4] + bytes(4), broken, True),
        ("a method", b"\x1f\x8b\x07" + whole[3:], broken, False),
        ("text behind it", whole + b"some other text\n", broken, True),
        ("zeros behind it", whole + bytes(100), broken, True),
        ("a checked header", named_gzip(text, 2 | 8), broken, False),
        ("bzip2", bz2.compress(text), b"is compressed by bzip2", False),
        ("bzip2 -1", bz2.compress(text, 1), b"is compressed by bzip2", False),
        ("xz", lzma.compress(text), b"is compressed by xz", False),
        ("zstd", b"\x28\xb5\x2f\xfd\x24\x00", b"is compressed by zstd", False),
        ("zip", b"PK\x03\x04\x14\x00\x00", b"is compressed by zip", False),
    ]


def try_damaged(folder):
    """Packed data that ends too early or is damaged, and packers that are not known here."""
    for name, data, words, is_begun in damaged():
        put(folder, name, data)
        err = [b"gff3: %s: " % name.encode(), words]
        # what came before the damage is said
        first = [said(1, 1, None, b"0 tabs", b"x", name.encode())]
        hold_call(["check", name], 2, first if is_begun else b"", err, cwd=folder)
        hold_call(["count", name], 2, b"", err, cwd=folder)
        hold_call(["rewrite", "-q", name], 2, None, err, cwd=folder)
        hold_call(["check", "-q"], 2, b"", [b"gff3: <stdin>: ", words], text=data)
    # what came before the damage is written, each time
    whole = gzip.compress(TO * 1000)
    sizes = {len(call(["rewrite", "-q"], whole[:-8] + bytes(8)).out) for _ in range(50)}
    hold("a wrong checksum behind 1,000 records, 50 times: bytes that rewrite has written", sizes, {len(TO * 1000)})
    # bytes that only begin as a packer's do
    for text in [b"\x1f\n", b"BZ\n", b"PK\n", b"\xfd7zXZ\n"]:
        hold_call(["check", "-q"], 1, b"", text=text)
    hold_call(["check", "-q"], 0, b"", text=row(name=b"BZhou1") + b"\n")


def try_names(folder):
    """Files by all kinds of names, and standard input by its own."""
    none = b"0 lines: 0 refused; 0 warnings"
    fine = b"1 line: 1 record, 0 refused; 0 warnings"
    for name in ["with spaces .gff3", "-dash", "--max", "ü", b"\xff\xfe.gff3", "new\nline"]:
        put(folder, os.fsdecode(name), GOOD)
        seen = os.fsencode(name).replace(b"\n", b"\\x0a")
        hold_call(["check", "--", name], 0, summed(fine, file=seen), cwd=folder)
        hold_call(["count", "--", name], 0, [seen + b"\nrecords         1\n"], cwd=folder)
        hold_call(["rewrite", "--", name], 0, GOOD, cwd=folder)
    two = [b"\xff\xfe.gff3: " + fine, "ü: ".encode() + fine, b"all 2 files: 2 lines: 2 records"]
    hold_call(["check", b"\xff\xfe.gff3", "ü"], 0, two, cwd=folder)
    hold_call(["check", "-dash"], 2, b"", None, cwd=folder)
    hold_call(["check", "./-dash"], 0, summed(fine, file=b"./-dash"), cwd=folder)
    put(folder, "good", GOOD)
    put(folder, "empty", b"")
    hold_call(["check", "empty"], 0, summed(none, file=b"empty"), cwd=folder)
    hold_call(["check", "/dev/null"], 0, summed(none, file=b"/dev/null"))
    for words in [["check"], ["check", "-"]]:
        hold_call(words, 0, summed(fine), text=GOOD)
        hold_call(words, 0, summed(none), text=b"")
    both = summed(fine, file=b"good") + summed(fine) + summed(fine, file=b"good")
    all_of_them = summed(b"3 lines: 3 records, 0 refused; 0 warnings", file=b"all 3 files")
    hold_call(["check", "good", "-", "good"], 0, both + all_of_them, text=GOOD, cwd=folder)
    hold_call(["rewrite", "-"], 0, TO, text=FROM)
    with open(os.path.join(folder, "good"), "rb") as file:
        hold_call(["check"], 0, summed(fine), stdin=file, what="a file on standard input")
    # a byte
    unended = said(1, b"cut", None, b"the last line has no line feed")
    one = said(1, 1, None, b"0 tabs", b"x") + unended + summed(b"1 line: 1 refused; 1 warning", {1: 1, b"cut": 1})
    hold_call(["check"], 1, one, text=b"x")
    hold_call(["check"], 0, unended + summed(b"1 line: 1 comment, 0 refused; 1 warning", {b"cut": 1}), text=b"#")
    hold_call(["check"], 0, summed(none), text=b"\n")
    hold_call(["check", "--off", "cut"], 1, [said(1, 1, None, b"0 tabs", b"\\x0d")], text=b"\r")


def try_unreadable(folder):
    """A source that cannot be read is trouble, and the others are read all the same."""
    put(folder, "good", GOOD)
    put(folder, "bad", b"x\n")
    fine = summed(b"1 line: 1 record, 0 refused; 0 warnings", file=b"good")
    table = [("no", b"No such file or directory"), (".", b"is a folder"), ("good/x", b"Not a directory"), (b"\xff", b"No such file")]
    for name, why in table:
        err = [why, b"gff3: "] + ([b"gff3: " + name.encode() + b": "] if isinstance(name, str) else [])
        hold_call(["check", name], 2, b"", err, cwd=folder)
        hold_call(["count", name], 2, b"", err, cwd=folder)
        hold_call(["rewrite", name], 2, b"", err, cwd=folder)
        hold_call(["check", "good", name, "bad", "good"], 2, [fine, b"bad:1: refused by 1", b"all 3 files: 3 lines: "], err, cwd=folder)
        hold_call(["count", "good", name, "good"], 2, [b"good\nrecords         1\n"], err, cwd=folder)
        done = call(["count", "--format", "tsv", name, "good", name, "bad"], cwd=folder)
        hold("the rows of the others", (done.status, [file for file, _ in rows_counted(done)]), (2, ["good", "bad"]))
    root = os.open("/", os.O_RDONLY)
    for name in ["check", "count", "rewrite"]:
        hold_call([name], 2, b"", [b"gff3: <stdin>: is a folder"], stdin=root, what="a folder on standard input")
    os.close(root)
    # a read that fails behind the opening
    hold_call(["check", "/proc/self/mem"], 2, b"", [b"gff3: /proc/self/mem: Input/output error"])


def try_closed_streams(folder):
    """A stream that is needed and not there is trouble, and no empty file."""
    put(folder, "good", GOOD)

    def without(stream, *words):
        words = REWRITE.closed(stream, [command, *words])
        done = subprocess.run(words, cwd=folder, env=ENVIRONMENT, capture_output=True, timeout=60)
        return done.returncode, done.stdout != b"", done.stderr != b""

    for name in ["check", "count", "rewrite"]:
        hold(f"gff3 {name} <&-: the status, and what is said", without("<", name), (2, False, True))
        hold(f"gff3 {name} good <&-", without("<", name, "good"), (0, True, False))
        hold(f"gff3 {name} good >&-", without(">", name, "good"), (2, False, True))
        hold(f"gff3 {name} good 2>&-", without("2>", name, "good"), (0, True, False))
    hold("gff3 rewrite good -o out >&-", without(">", "rewrite", "good", "-o", "out"), (0, False, False))
    hold_files("what it wrote", folder, {"good": GOOD, "out": GOOD})


# a user without rights, by number, and a group of which there may be none
NOBODY, TEAM = 65534, 54321


def for_others(folder):
    """What starts the command as another user than root; None where it cannot be started so."""
    copy = os.path.join(folder, "gff3")
    shutil.copy(command, copy)
    os.chmod(folder, 0o755)
    os.chmod(copy, 0o755)
    as_user = {"user": NOBODY, "group": NOBODY, "extra_groups": [], "executable": copy}
    try:
        subprocess.run(["gff3", "--version"], check=True, capture_output=True, **as_user)
    except (OSError, subprocess.SubprocessError) as why:
        left_out("what another user may do", why)
        return None
    return as_user


def try_permissions(folder):
    """Files and folders that may not be read or written, for another user where this one may do all."""
    put(folder, "good", GOOD)
    os.chmod(put(folder, "secret", GOOD), 0)
    as_user = for_others(folder) if os.geteuid() == 0 else {}
    if as_user is None:
        return
    err = [b"gff3: secret: Permission denied"]
    for name in ["check", "count", "rewrite"]:
        hold_call([name, "secret"], 2, b"", err, cwd=folder, **as_user)
    hold_call(["check", "good", "secret", "good"], 2, [b"good: 1 line: 1 record, 0 refused"], err, cwd=folder, **as_user)
    before = sorted(os.listdir(folder))
    os.chmod(folder, 0o555)
    hold_call(["rewrite", "good", "-o", "out"], 2, b"", [b"gff3: out: Permission denied"], cwd=folder, **as_user)
    hold("a folder that may not be written to", sorted(os.listdir(folder)), before)
    os.chmod(folder, 0o755)


def try_owners(folder):
    """A file keeps its owner where root replaces it, and its group where one of the group does."""
    as_user = for_others(folder) if os.geteuid() == 0 else None
    if as_user is None:
        left_out("whose a file is that is replaced", "that takes root")
        return
    for more, expected in [({}, (NOBODY, TEAM)), ({**as_user, "extra_groups": [TEAM]}, (NOBODY, TEAM))]:
        out = put(folder, "out", b"old")
        os.chown(out, 0 if more else NOBODY, TEAM)
        os.chmod(out, 0o660)
        os.chmod(folder, 0o777)
        hold_call(["rewrite", "-o", "out"], 0, b"", text=FROM, cwd=folder, **more)
        found = os.stat(out)
        what = "root" if not more else "one of the group"
        hold(f"owner, group and mode of a file that {what} replaces", (found.st_uid, found.st_gid, oct(mode(out))), (*expected, oct(0o660)))
        os.remove(out)
