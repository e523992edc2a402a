#!/usr/bin/env python3
"""Checks that man/swsusp-replies.7 has a row for each line that the programs print or note: the texts of the replies
(crates/script/src/phrases.rt) and of the notes of both command lines. Prints the lines that have none, and ends with status 1 if there
is one."""
import pathlib
import re
import sys

top = pathlib.Path(__file__).resolve().parent.parent
page = (top / "man/swsusp-replies.7").read_text()
rows = [row.strip() for line in re.findall(r"^\.It Li (.*)$", page, re.M) for row in line.split(" , ")]

# A text that varies by a word has a row for each word.
VARIANTS = {
    "read fault ": ["same", "gone"],
    "write fault ": ["same", "gone", "unsure"],
    "sync fault ": ["same", "gone", "unsure"],
    "undo ": ["write", "sync"],
}

# Texts on standard output, as a row of a list that other manual pages have, or as a part of a longer line.
ELSEWHERE = {"area last ", "imported ", "same", "hardware", "saveable ", "page ", " need "}


def texts(path, calls):
    """Returns the texts that a file writes by these calls."""
    source = (top / path).read_text()
    source = re.sub(r"^\s*//.*$", "", source, flags=re.M)
    return re.findall(r"(?:%s)[^;\"]*?b\"([^\"]*)\"" % calls, source)


def main():
    wanted = []
    replies = (top / "crates/script/src/phrases.rt").read_text()
    body = replies[replies.index("match reply") :]
    body = body[: body.index("\n}\n")]
    for text in re.findall(r"=>\s*(?:\{\s*)?Phrase::\w+\(\s*b\"([^\"]*)\"", body):
        wanted.append(text)
    wanted += ["booted image yes", "booted image no", "undo ", "mismatch ", "bad counts "]
    no_swap = (top / "crates/script/src/texts.rt").read_text()
    wanted += ["no swap: " + text for text in re.findall(r"NoSwap::\w+[^=]*=>\s*(?:\{\s*)?\w[\w.]*\([^;]*?b\"([^\"]+)\"", no_swap)]
    for folder in ("swsusp_cli", "machine_cli", "swsusp", "swsusp_machine"):
        for path in sorted((top / "crates" / folder / "src").glob("*.rt")):
            wanted += texts(path.relative_to(top), r"note\.put\(|print\(|ended\(|no_memory\(|=> ")
    formats = (top / "docs/FORMATS.md").read_text()
    missing = set()
    seen = 0
    for text in wanted:
        text = text.replace("\\n", "")
        if not text.strip() or text in ELSEWHERE:
            continue
        if text.endswith((" byte ", " frame ")):
            # A kind of fault of a dump or a stream: the table of those is in docs/FORMATS.md.
            if f"`{text.split()[0]}`" not in formats and f"| {text.split()[0]} |" not in formats:
                missing.add(text.strip())
            continue
        seen += 1
        for word in VARIANTS.get(text, [""]):
            whole = (text + word).strip()
            if not any(row == whole or row.startswith(whole + " ") for row in rows):
                missing.add(whole)
    for text in sorted(missing):
        print(f"no row in man/swsusp-replies.7: {text}")
    print(f"{seen} lines looked for, {len(missing)} missing")
    return 1 if missing or seen < 60 else 0


if __name__ == "__main__":
    sys.exit(main())
