"""The words of the command line, the help, the manual page, the completions, and tools/gff3."""

import os
import re
import shutil
import subprocess

from desk import ENVIRONMENT, GOOD, ROOT, WARNINGS, call, command, got, hold, hold_call, judge, left_out, put, row, said, summed
from outputs import FROM, TO

# ── words of the command line ──


def try_words(folder):
    """The status of each call, and the words that are there to help."""
    for name in ["check", "rewrite", "count"]:
        hold_call([name], 0, text=GOOD)
        hold_call([name], 1, err=None, text=b"x\n")
        hold_call([name, "no-such-file"], 2, b"", [b"gff3: no-such-file: No such file or directory"])
        hold_call([name, "--help"], 0, [b"Usage: gff3 " + name.encode(), b"--color <WHEN>"])
        hold_call([name, "-h"], 0, [b"Usage: gff3 " + name.encode(), b"--color <WHEN>"])
        hold_call(["help", name], 0, [b"Usage: gff3 " + name.encode()])
    for words in ["--help", "-h", "help"]:
        hold_call([words], 0, [b"Usage: gff3 ", b"check", b"rewrite", b"count", b"completions", b"manual", b"Status: 0 where no line"])
    version = re.search(r'^version = "(.*)"$', open(os.path.join(ROOT, "command/Cargo.toml")).read(), re.M).group(1)
    for words in ["--version", "-V"]:
        hold_call([words], 0, f"gff3 {version}\n".encode())
    hold_call(["--color", "never", "check", "-q"], 1, b"", text=b"x\n")
    hold_call(["check"], 0, text=row(start=b"14") + b"\n", what="a warning is no refusal")


WRONG_WORDS = [
    ([], b"Usage: gff3 "),
    (["--bad"], b"'--bad'"),
    (["nothing"], b"'nothing'"),
    (["check", "--bad"], b"'--bad'"),
    (["check", "--off", "nothing"], b"'nothing'"),
    (["check", "--off", "cut,nothing"], b"'nothing'"),
    (["check", "--off", "TAG-SPACE"], b"'TAG-SPACE'"),
    (["check", "--max"], b"--max <N>"),
    (["check", "--max", "x"], b"'x'"),
    (["check", "--max", "18446744073709551616"], b"'18446744073709551616'"),
    (["check", "--format", "xml"], b"'xml'"),
    (["check", "--color", "sometimes"], b"'sometimes'"),
    (["rewrite", "a", "b"], b"'b'"),
    (["rewrite", "-o"], b"--output <OUT>"),
    (["rewrite", "--refused", "burn"], b"'burn'"),
    (["rewrite", "--format", "tsv"], b"'--format'"),
    (["count", "--max", "1"], b"'--max'"),
    (["completions"], b"<SHELL>"),
    (["completions", "tcsh"], b"'tcsh'"),
]


def try_wrong_words(folder):
    """Words that the command does not know, which it names."""
    for words, named in WRONG_WORDS:
        hold_call(words, 2, b"", [named, b"--help"])
    hold_call(["check", "--off", "nothing"], 2, b"", [b"possible values: " + b", ".join(WARNINGS)])


# ── help, manual page, completions ──


def sections(page):
    """The sections of the manual page, in plain words: without requests, fonts and escapes."""
    found = {"": ""}
    name = ""
    for line in page.split("\n"):
        if line.startswith(".SH "):
            name = line[4:].strip('"')
            found[name] = ""
        elif not line.startswith((".", "'")):
            found[name] += " " + re.sub(r"\\f[BIRP]|\\&", "", line).replace("\\-", "-").replace("\\(aq", "'").replace("\\\\", "\\")
    return {name: " ".join(text.split()) for name, text in found.items()}


def help_items(text):
    """The arguments that a long help describes: the words of each, its paragraphs, its possible values with theirs, and its default."""
    items = []
    for line in text[re.search(r"^(Arguments|Options):$", text, re.M).start() :].split("\n"):
        if re.match(r" {2,6}(-|\[|<)", line):
            items.append((line.strip(), []))
        elif line in ("Arguments:", "Options:"):
            continue
        elif re.match(r"\S", line):
            break
        elif items and not line.strip():
            items[-1][1].append("")
        elif items:
            items[-1][1][-1:] = [" ".join([*items[-1][1][-1:], line.strip()]).strip()]
    return items


def words_of(item):
    """What the manual page has to say of an argument, in pieces."""
    head, paragraphs = item
    words, default, values = [], None, []
    for paragraph in paragraphs:
        if paragraph.startswith("[default: "):
            default = paragraph[len("[default: ") : -1]
        elif paragraph.startswith("[possible values: "):
            values = [(name, "") for name in paragraph[len("[possible values: ") : -1].split(", ")]
        elif paragraph.startswith("Possible values:"):
            values = re.findall(r"- ([\w-]+):\s+(.*?)(?= - [\w-]+:|$)", paragraph)
        else:
            words.append(paragraph)
    name = re.sub(r"<(\w+)>", r"\1", head) if head.startswith("-") else head
    yield " ".join(" ".join([name, *words]).split())
    for name, meaning in values:
        yield " ".join(f"{name} {meaning}{' (default)' if name == default else ''}".split())


def try_manual(folder):
    """The manual page says all that the help says."""
    done = hold_call(["manual"], 0, [b".TH GFF3 1"])
    page = sections(done.out.decode())
    for name in ["check", "rewrite", "count", "completions", "manual"]:
        text = call([name, "--help"]).out.decode()
        about = " ".join(text[: text.index("Usage:")].split())
        section = page.get(f"gff3 {name}", "")
        judge(about in section, f"the manual page on {name}", section, about)
        pieces = [piece for item in help_items(text) for piece in words_of(item)]
        judge(len(pieces) >= 5, f"the help on {name} is read", len(pieces), "arguments and values")
        for piece in pieces:
            judge(piece in section, f"the manual page on {name}", section, piece)
    text = call(["--help"]).out.decode()
    whole = " ".join(page.values())
    about = " ".join(text[: text.index("Usage:")].split())
    after = " ".join(text[text.index("Status:") : text.index("Examples:")].split())
    calls = [line.strip() for line in text[text.index("Examples:") :].split("\n")[1:] if line.strip()]
    for piece in [about, after, *calls, *(piece for item in help_items(text) for piece in words_of(item))]:
        judge(piece in whole, "the manual page", whole, piece)
    hold("the calls of the help", len(calls), 6)
    if shutil.which("man") is None:
        left_out("the manual page by man", "no command 'man'")
        return
    drawn = subprocess.run(["man", "--warnings", "-l", "-"], input=done.out, capture_output=True, env=ENVIRONMENT, timeout=60)
    hold("man has nothing against it", (drawn.returncode, drawn.stderr, b"EXIT STATUS" in drawn.stdout), (0, b"", True))


def try_completions(folder):
    """The completions name each word, and bash's completes."""
    names = [b"check", b"rewrite", b"count", b"completions", b"manual", b"refused", b"tag-semicolon", b"format", b"color"]
    scripts = {shell: hold_call(["completions", shell], 0, names).out for shell in ["bash", "zsh", "fish"]}
    for shell, script in scripts.items():
        if shutil.which(shell) is None:
            left_out(f"the completions by {shell}", f"no command '{shell}'")
            continue
        done = subprocess.run([shell, "-n"], input=script, capture_output=True, timeout=60)
        hold(f"{shell} -n", (done.returncode, done.stderr), (0, b""))
    table = [
        (["gff3", "re"], b"rewrite"),
        (["gff3", "co"], b"count completions"),
        (["gff3", "rewrite", "--ref"], b"--refused"),
        (["gff3", "rewrite", "--refused", ""], b"mark keep drop"),
        (["gff3", "check", "--off", "tag-"], b"tag-semicolon tag-space"),
        (["gff3", "count", "--format", "j"], b"json"),
    ]
    ask = b'\nCOMP_WORDS=("$@") COMP_CWORD=$(($# - 1))\n_gff3 gff3 "${COMP_WORDS[-1]}" "${COMP_WORDS[-2]}"\necho "${COMPREPLY[*]}"\n'
    for words, expected in table:
        done = subprocess.run(["bash", "-s", "--", *words], input=scripts["bash"] + ask, capture_output=True, timeout=60)
        hold(f"bash completes {words}", sorted(done.stdout.split()), sorted(expected.split()))


# ── tools/gff3 ──


INSTALLED = {
    "share/man/man1/gff3.1": ["manual"],
    "share/bash-completion/completions/gff3": ["completions", "bash"],
    "share/zsh/site-functions/_gff3": ["completions", "zsh"],
    "share/fish/vendor_completions.d/gff3.fish": ["completions", "fish"],
    "bin/gff3": ["--version"],
}


def is_built():
    """Whether the command that is tried is the one that tools/gff3 builds."""
    built = os.path.join(ROOT, "target/command/release/gff3")
    return os.path.exists(built) and os.path.samefile(built, command)


def try_install(folder):
    """tools/install --command: the command, and each page where it is looked for."""
    if not is_built():
        left_out("tools/install --command", "the command that is tried is another one")
        return
    install = [os.path.join(ROOT, "tools/install"), "--command"]
    hold("tools/install --command PREFIX", subprocess.run([*install, folder], capture_output=True, timeout=600).returncode, 0)
    for name, words in INSTALLED.items():
        path = os.path.join(folder, name)
        own = subprocess.run([path, *words], capture_output=True).stdout if name == "bin/gff3" else got(folder, name)
        hold(f"tools/install --command PREFIX: {name}", own, call(words).out)
    hold("tools/install --command PREFIX: the licence", os.path.exists(os.path.join(folder, "share/doc/gff3_lines/LICENSE")), True)
    hold("tools/install --command", subprocess.run(install, capture_output=True, timeout=600).returncode, 2)


def try_tool(folder):
    """tools/gff3, through a link and from another folder, where it has built the command that is tried."""
    if not is_built():
        left_out("tools/gff3", "the command that is tried is another one")
        return
    put(folder, "a b", b"x\n")
    link = os.path.join(folder, "gff3")
    os.symlink(os.path.join(ROOT, "tools/gff3"), link)
    os.symlink("gff3", link + "-2")
    expected = said(1, 1, None, b"0 tabs", b"x", b"a b") + summed(b"1 line: 1 refused; 0 warnings", {1: 1}, b"a b")
    for words in [["./gff3"], [link + "-2"], [os.path.join(ROOT, "tools/gff3")]]:
        done = subprocess.run([*words, "check", "a b"], cwd=folder, capture_output=True, timeout=600)
        hold(f"{os.path.basename(words[0])} check 'a b'", (done.returncode, done.stdout), (1, expected))
    done = subprocess.run([link, "rewrite", "-q"], input=FROM, cwd=folder, capture_output=True, timeout=600)
    hold("gff3 rewrite through a link", (done.returncode, done.stdout), (0, TO))
    done = subprocess.run([link, "check", "no"], cwd=folder, capture_output=True, timeout=600)
    hold("gff3 check of no file through a link", (done.returncode, done.stdout), (2, b""))
