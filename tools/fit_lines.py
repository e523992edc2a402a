#!/usr/bin/env python3
"""fit_lines.py FILE..: breaks the lines of specs (.antt) and sources (.rt) that are over 120 columns.

Comments are filled anew, `use` lines are split, and other lines are broken where the fewest brackets are open: after an arrow or an
equals sign, before another operator, `then` or `else`, or else before an argument. Lines without such a place are reported. Run
`rt fmt` afterwards.
"""
import pathlib
import re
import sys
import textwrap

WIDTH = 120
COMMENT = re.compile(r"^(\s*)(//!|///|//|--)( |$)")
USE = re.compile(r"^(\s*(?:ghost )?use [^{]*)\{(.*)\}(;?)$")

# Texts at which a line may be broken, and whether the text stays on the first part.
PLACES = [("; ", True), (" → ", True), (" = ", True), (" × ", False), (" ⊎ ", False), (" ++ ", False), (" ∷ ", False), (" && ", False), (" || ", False),
          (" then ", False), (" else ", False)]


def filled(lines, at):
    """Returns the comment that begins with a line, filled anew, and where it ends."""
    start = "".join(COMMENT.match(lines[at]).group(1, 2)) + " "
    end, text = at, []
    while end < len(lines) and lines[end].startswith(start) and not re.match(r"\s*([-*|#]|\d+\.|$)", lines[end][len(start) :]):
        text.append(lines[end][len(start) :])
        end += 1
    words = textwrap.wrap(" ".join(text), WIDTH - len(start), break_long_words=False, break_on_hyphens=False)
    return [start + line for line in words], end


def split(found):
    """Splits a `use` line into as many lines as it takes."""
    head, names, end = found.groups()
    lines, now = [], []
    for name in names.split(", "):
        if now and len(f"{head}{{{', '.join([*now, name])}}}{end}") > WIDTH:
            lines.append(f"{head}{{{', '.join(now)}}}{end}")
            now = []
        now.append(name)
    return [*lines, f"{head}{{{', '.join(now)}}}{end}"]


def place_in(line):
    """Returns where to break a line: at the least depth, and there as far on as fits."""
    begin = len(line) - len(line.lstrip())
    depth, found = 0, None
    for at, sign in enumerate(line):
        depth += (sign in "([{") - (sign in ")]}")
        for text, stays in PLACES:
            if at > begin + 8 and line.startswith(text, at) and not (text == " = " and depth > 0):
                end = at + len(text) if stays else at
                level = -1 if text == " = " and begin == 0 else depth
                if end <= WIDTH and (found is None or level <= found[0]):
                    found = (level, end)
    return found and found[1] or space_in(line)


def space_in(line):
    """Returns another place to break: before an argument or a parameter, at the least depth, as far on as fits. Texts and attributes aren't broken."""
    begin = len(line) - len(line.lstrip())
    depth, found = 0, None
    for at, sign in enumerate(line[: WIDTH + 1]):
        depth += (sign in "([{") - (sign in ")]}")
        after = line[at + 1 :].lstrip()
        opens = sign == " " and re.match(r"(?!where\b|Type\b|\d)[\w(]", after) and not line[:at].endswith((" =", " :", "λ", "let"))
        if at > begin + 30 and opens and (found is None or depth <= found[0]):
            found = (depth, at)
    return None if '"' in line or line.lstrip().startswith("#") else found and found[1]


def broken(line, rest):
    lines = []
    while len(line) > WIDTH and (at := place_in(line)):
        lines.append(line[:at].rstrip())
        line = rest + line[at:].lstrip()
    return [*lines, line]


def texts_in(lines):
    """Returns for each line whether it begins inside a text of several lines, or begins such a text."""
    inside, found = False, []
    for line in lines:
        was, code = inside, re.sub(r"\\\\.|'.'", "", line)
        if not was and COMMENT.match(line):
            found.append(False)
            continue
        inside ^= code.count('"') % 2 == 1
        found.append(was or inside)
    return found


def fitted(path):
    lines, made, at = path.read_text().split("\n"), [], 0
    inside = texts_in(lines)
    while at < len(lines):
        line = lines[at]
        indent = len(line) - len(line.lstrip())
        if COMMENT.match(line) and not inside[at]:
            new, end = filled(lines, at)
            end = max(end, at + 1)
            made += new if any(len(old) > WIDTH for old in lines[at:end]) and new else lines[at:end]
            at = end
            continue
        if inside[at]:
            made.append(line)
        elif len(line) > WIDTH and USE.match(line):
            made += split(USE.match(line))
        elif len(line) > WIDTH:
            deeper = indent == 0 or path.suffix == ".rt" or re.match(r"\s*(?!let )(pub )?[\w'-]+( [^=]*)? [:=] ", line)
            made += broken(line, " " * (indent + 4 if deeper else indent))
        else:
            made.append(line)
        at += 1
    return made


def main(*names):
    for path in map(pathlib.Path, names):
        lines = fitted(path)
        path.write_text("\n".join(lines))
        for at, line in enumerate(lines, 1):
            if len(line) > WIDTH:
                print(f"{path}:{at}: {len(line)} columns")


if __name__ == "__main__":
    main(*sys.argv[1:])
