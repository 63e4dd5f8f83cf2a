"""Colours, widths, bars and typing, on a terminal."""

import contextlib
import fcntl
import os
import pty
import re
import select
import struct
import subprocess
import tempfile
import termios
import tty

from desk import ENVIRONMENT, arrows, call, command, hold, hold_call, put, row, said, summed
from pipes import read_up_to


def on_terminal(words, streams, columns=80, text=None, color=None, environment=None, **more):
    """Calls the command with some of its streams on a terminal of so many columns; its status, and what the terminal got."""
    terminal, end = pty.openpty()
    tty.setraw(end)
    fcntl.ioctl(end, termios.TIOCSWINSZ, struct.pack("4H", 24, columns, 0, 0))
    usual = {name: end if name in streams else subprocess.DEVNULL for name in ["stdout", "stderr"]}
    if text is not None:
        more["stdin"] = tempfile.TemporaryFile()
        more["stdin"].write(text)
        more["stdin"].seek(0)
    options = ["--color", color] if color else []
    child = subprocess.Popen([command, *options, *words], env={**ENVIRONMENT, **(environment or {})}, **{**usual, **more})
    os.close(end)
    screen = b""
    # a terminal whose other end is closed by all gives an error
    with contextlib.suppress(OSError):
        while select.select([terminal], [], [], 60)[0]:
            piece = os.read(terminal, 1 << 16)
            if not piece:
                break
            screen += piece
    os.close(terminal)
    return child.wait(timeout=60), screen


RED, YELLOW, ANY = b"\x1b[31m", b"\x1b[33m", b"\x1b["


def try_colors(folder):
    """Colours stand on a terminal, and where they are asked for."""
    text = row(end=b"x") + b"\n" + row(start=b"14") + b"\n"
    plain = said(1, 2, 5, b"`x`", arrows(row(end=b"x"))) + said(2, b"reversed", 4, b"14, 13")
    plain += summed(b"2 lines: 1 record, 1 refused; 1 warning", {2: 1, b"reversed": 1})
    table = [
        (None, {}, True),
        ("auto", {}, True),
        ("always", {}, True),
        ("never", {}, False),
        (None, {"NO_COLOR": "1"}, False),
        ("always", {"NO_COLOR": "1"}, True),
        (None, {"TERM": "dumb"}, False),
    ]
    for color, environment, is_colored in table:
        status, screen = on_terminal(["check"], ["stdout"], text=text, color=color, environment=environment)
        what = f"check on a terminal, --color {color}, {environment}"
        hold(what, (status, RED in screen, YELLOW in screen, ANY in screen), (1, is_colored, is_colored, is_colored))
        hold(what + ", without its colours", re.sub(rb"\x1b\[\d*m", b"", screen), plain)
    for color, is_colored in [("auto", False), ("never", False), ("always", True)]:
        done = call(["check", "--color", color], text)
        hold(f"check | --color {color}", (done.status, RED in done.out, ANY in done.out), (1, is_colored, is_colored))
    for style in ["tsv", "json"]:
        done = call(["check", "--color", "always", "--format", style], text)
        hold(f"no colours for machines, {style}", (done.status, ANY in done.out), (1, False))
    status, screen = on_terminal(["rewrite"], ["stderr"], text=text)
    hold("rewrite with standard error on a terminal", (status, RED in screen), (1, True))
    done = call(["rewrite"], text)
    hold("rewrite without one", ANY in done.err + done.out, False)
    status, screen = on_terminal(["rewrite"], ["stdout"], text=text)
    hold("rewrite to a terminal writes the same bytes", (status, screen), (1, b"! 2\n" + row(start=b"14") + b"\n"))


def try_widths(folder):
    """A text is cut to the width of the terminal, and its colours end."""
    dots = "…".encode()
    for columns in [30, 60, 80, 200]:
        _, screen = on_terminal(["check"], ["stdout"], columns, text=b"x" * 300 + b"\n", color="never")
        hold(f"a text on {columns} columns", screen.split(b"\n")[1], b"    " + b"x" * (columns - 5) + dots)
        _, screen = on_terminal(["rewrite"], ["stderr"], columns, text=b"x" * 300 + b"\n", color="never")
        hold(f"the same of rewrite, on {columns} columns", screen.split(b"\n")[1], b"    " + b"x" * (columns - 5) + dots)
    line = row(end=b"e" * 300)
    _, screen = on_terminal(["check"], ["stdout"], 60, text=line + b"\n")
    shown_line = screen.split(b"\n")[1]
    hold("a coloured text is as wide", re.sub(rb"\x1b\[\d*m", b"", shown_line), b"    " + arrows(b"sq0\tlab\tgene\t8\t") + b"e" * 40 + dots)
    hold("its colours end", (RED in shown_line, re.findall(rb"\x1b\[\d*m", shown_line)[-1:]), (True, [b"\x1b[0m"]))
    for columns in [1, 4, 0]:
        status, screen = on_terminal(["check"], ["stdout"], columns, text=line + b"\n")
        hold(f"a terminal of {columns} columns", (status, b"refused by 2" in screen), (1, True))


def try_bars(folder):
    """A progress bar for a large file, where standard error is a terminal and nothing else is written there."""
    large = put(folder, "large", b"")
    os.truncate(large, 1 << 29)
    total = b"of 512.00 MiB"
    status, screen = on_terminal(["check", "large"], ["stderr"], cwd=folder)
    hold("a bar while checking", (status, total in screen), (1, True))
    status, screen = on_terminal(["count", "large"], ["stderr"], cwd=folder)
    hold("a bar while counting", (status, total in screen), (1, True))
    status, screen = on_terminal(["rewrite", "large", "-q", "-o", "out"], ["stdout", "stderr"], cwd=folder)
    hold("a bar while a file is written", (status, total in screen), (1, True))
    # 50 times: one thread draws the bar, and another hides it
    os.truncate(large, 1 << 26)
    ended = {on_terminal(["rewrite", "large", "-q"], ["stdout", "stderr"], cwd=folder) for _ in range(50)}
    hold("no bar where the text is written", ended, {(1, b"! 25\n")})
    hold_call(["check", "large"], 1, [b"large:1: refused by 25"], b"", cwd=folder, what="no bar without a terminal")
    os.truncate(large, 1 << 20)
    status, screen = on_terminal(["check", "large"], ["stderr"], cwd=folder)
    hold("no bar for a small file", (status, screen), (1, b""))


def try_typing(folder):
    """One who types is told that the command waits, hears of each line, and ends it by one Ctrl-D."""
    told = b"gff3: reading standard input, up to Ctrl-D\n"
    none, one = summed(b"0 lines: 0 refused; 0 warnings"), summed(b"1 line: 1 refused; 0 warnings", {1: 1})
    for line, counts in [(b"several words", one), (b"x", one), (b"", none)]:
        terminal, end = pty.openpty()
        child = subprocess.Popen([command, "check"], stdin=end, stdout=subprocess.PIPE, stderr=subprocess.PIPE, env=ENVIRONMENT)
        os.close(end)
        hold("check, from a terminal", read_up_to(child.stderr, told), told)
        expected = said(1, 1, None, b"0 tabs", line) if line else b""
        os.write(terminal, line and line + b"\n")
        hold(f"{line!r} is typed", read_up_to(child.stdout, expected), expected)
        os.write(terminal, b"\x04")
        hold(f"Ctrl-D behind {line!r}", read_up_to(child.stdout, counts), counts)
        # a terminal that is gone ends a call that waits all the same
        os.close(terminal)
        child.wait(timeout=60)
        child.stdout.close()
        child.stderr.close()
