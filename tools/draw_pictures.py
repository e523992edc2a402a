#!/usr/bin/env python3
"""Draws docs/image.svg, docs/machine.svg and docs/crates.svg.

The layout of an image is that of an area whose slots lie on the blocks of their numbers. The floors are read from the first table of
docs/ARCHITECTURE.md.
"""

import html
import pathlib
import re

TOP = pathlib.Path(__file__).resolve().parent.parent
DOCS = TOP / "docs"

STYLE = """
text { font: 13px sans-serif; fill: #222 }
.small { font-size: 11px; fill: #555 }
.title { font-size: 15px; font-weight: bold }
.box { fill: #f4f4f0; stroke: #555 }
.header { fill: #f2d3c9; stroke: #555 }
.map { fill: #cfe0f2; stroke: #555 }
.info { fill: #d9ead3; stroke: #555 }
.numbers { fill: #fff2cc; stroke: #555 }
.page { fill: #ffffff; stroke: #555 }
.line { stroke: #555; fill: none; marker-end: url(#tip) }
.cut { stroke: #b03a2e; fill: none; stroke-dasharray: 5 3; marker-end: url(#cut-tip) }
"""

TIPS = """<defs>
<marker id="tip" viewBox="0 0 8 8" refX="8" refY="4" markerWidth="7" markerHeight="7" orient="auto"><path d="M0 0L8 4L0 8z" fill="#555"/></marker>
<marker id="cut-tip" viewBox="0 0 8 8" refX="8" refY="4" markerWidth="7" markerHeight="7" orient="auto"><path d="M0 0L8 4L0 8z" fill="#b03a2e"/></marker>
</defs>"""


def text(x, y, words, kind="", anchor="start"):
    return f'<text x="{x}" y="{y}" class="{kind}" text-anchor="{anchor}">{html.escape(words)}</text>'


def box(x, y, width, height, kind="box"):
    return f'<rect x="{x}" y="{y}" width="{width}" height="{height}" rx="3" class="{kind}"/>'


def labelled(x, y, width, height, lines, kind="box"):
    parts = [box(x, y, width, height, kind)]
    first = y + height / 2 - 8 * (len(lines) - 1) + 4
    for k, words in enumerate(lines):
        parts.append(text(x + width / 2, first + 16 * k, words, "" if k == 0 else "small", "middle"))
    return "\n".join(parts)


def line(points, kind="line"):
    return f'<path class="{kind}" d="M' + " L".join(f"{x} {y}" for x, y in points) + '"/>'


def curve(x1, y1, x2, y2, height, kind="line"):
    return f'<path class="{kind}" d="M{x1} {y1} C{x1} {y1 - height} {x2} {y2 - height} {x2} {y2}"/>'


def write(name, width, height, parts):
    body = "\n".join(parts)
    (DOCS / name).write_text(
        f'<svg xmlns="http://www.w3.org/2000/svg" viewBox="0 0 {width} {height}" width="{width}" height="{height}">\n'
        f"<style>{STYLE}</style>\n{TIPS}\n"
        f'<rect width="{width}" height="{height}" fill="white"/>\n{body}\n</svg>\n'
    )


def image():
    """Draws an image of more than 509 page frames, whose first map is full."""
    blocks = [
        ("header", ["block 0", "header"]),
        ("map", ["block 1", "map 1"]),
        ("info", ["block 2", "info page"]),
        ("numbers", ["block 3", "numbers"]),
        ("page", ["block 4", "page"]),
        ("page", ["..", "pages"]),
        ("page", ["block 512", "page"]),
        ("map", ["block 513", "map 2"]),
        ("page", ["block 514", "page"]),
        ("page", ["..", "pages"]),
    ]
    step, top = 92, 120
    parts = [text(20, 28, "An image on the disk", "title")]
    parts.append(text(20, 48, "Each box is a block of 4096 bytes. Entries, links and the mark name blocks of the device.", "small"))
    for k, (kind, lines) in enumerate(blocks):
        parts.append(labelled(20 + step * k, top, step - 8, 56, lines, kind))

    def middle(k):
        return 20 + step * k + (step - 8) / 2

    parts.append(curve(middle(0), top, middle(1) - 12, top, 46))
    parts.append(text((middle(0) + middle(1)) / 2, top - 42, "image", "small", "middle"))
    for k in (2, 3, 4, 6):
        parts.append(curve(middle(1), top + 56, middle(k), top + 56, -20 - 9 * k))
    parts.append(text(middle(3), top + 130, "511 entries", "small", "middle"))
    parts.append(curve(middle(1) + 12, top, middle(7), top, 56))
    parts.append(text(middle(4), top - 48, "link", "small", "middle"))
    parts.append(curve(middle(7), top + 56, middle(8), top + 56, -28))
    fields = [(4056, 4, "hw_sig"), (4060, 4, "crc32"), (4064, 8, "image"), (4072, 4, "flags"), (4076, 10, "orig_sig"), (4086, 10, "sig")]
    left, scale, y = 20, 17, 300
    parts.append(text(left, y - 10, "The last 40 bytes of the header block, all in its last sector, are the mark"))
    for at, size, name in fields:
        x = left + (at - 4056) * scale
        parts.append(labelled(x, y, size * scale, 40, [name], "header"))
        parts.append(text(x + 2, y + 56, str(at), "small"))
    parts.append(text(left, y + 84, "sig is SWAPSPACE2 without an image, and S1SUSPEND with one; orig_sig then has the other.", "small"))
    write("image.svg", 960, 400, parts)


def machine():
    """Draws the states of the machine, its operations, and where a power cut leads."""
    parts = [text(20, 28, "States and operations of the machine", "title")]
    parts.append(text(20, 48, "Lines are events and last steps; dashed ones are power cuts, after which what was held on the disk is held.", "small"))
    places = {
        "off": (40, 230, ["off", "memory is gone"]),
        "booting": (330, 90, ["booting", "sync, read"]),
        "running": (680, 230, ["running", "tasks use memory"]),
        "hibernating": (330, 370, ["hibernating", "pages, maps, sync,", "read, mark, sync"]),
        "loading": (330, 230, ["loading", "sync, read, take back,", "sync, read on"]),
        "undoing": (680, 370, ["undoing", "take back, sync"]),
        "settling": (980, 230, ["settling", "read, take back, sync"]),
        "asleep": (980, 370, ["asleep", "tasks wait, memory stays"]),
        "waking": (980, 90, ["waking", "read, take back, sync"]),
    }
    width, height = 170, 66
    for x, y, lines in places.values():
        parts.append(labelled(x, y, width, height, lines))

    def at(name, dx, dy):
        x, y, _ = places[name]
        return (x + dx * width, y + dy * height)

    parts.append(line([at("off", 0.3, 0), (at("off", 0.3, 0)[0], 123), at("booting", 0, 0.5)]))
    parts.append(text(96, 116, "boot", "small"))
    parts.append(line([at("booting", 1, 0.5), (at("running", 0.7, 0)[0], 123), at("running", 0.7, 0)]))
    parts.append(text(560, 116, "booted", "small"))
    parts.append(line([at("off", 1, 0.3), at("loading", 0, 0.3)]))
    parts.append(text(232, 244, "resume", "small"))
    parts.append(line([at("loading", 1, 0.3), at("running", 0, 0.3)]))
    parts.append(text(560, 244, "resumed", "small"))
    parts.append(line([at("loading", 0, 0.6), at("off", 1, 0.6)]))
    parts.append(text(218, 284, "a cause, a fault", "small"))
    parts.append(line([at("running", 0.15, 1), (at("running", 0.15, 1)[0], 320), (at("hibernating", 0.6, 0)[0], 320), at("hibernating", 0.6, 0)]))
    parts.append(text(540, 314, "hibernate, suspend", "small"))
    parts.append(line([at("hibernating", 0.8, 0), (at("hibernating", 0.8, 0)[0], 346), (at("running", 0.35, 1)[0], 346), at("running", 0.35, 1)]))
    parts.append(text(520, 360, "a fault before the mark: same", "small"))
    parts.append(line([at("hibernating", 0, 0.5), (at("off", 0.3, 1)[0], 403), at("off", 0.3, 1)]))
    parts.append(text(140, 396, "hibernated", "small"))
    parts.append(line([at("hibernating", 1, 0.5), at("undoing", 0, 0.5)]))
    parts.append(text(508, 396, "the mark or its sync fails", "small"))
    parts.append(line([at("undoing", 0.7, 0), at("running", 0.7, 1)]))
    parts.append(text(806, 340, "gone, unsure", "small"))
    parts.append(line([at("running", 1, 0.3), at("settling", 0, 0.3)]))
    parts.append(text(896, 244, "settle", "small"))
    parts.append(line([at("settling", 0, 0.6), at("running", 1, 0.6)]))
    parts.append(text(870, 286, "settled, a fault", "small"))
    parts.append(line([at("hibernating", 0.7, 1), (at("hibernating", 0.7, 1)[0], 460), (at("asleep", 0.3, 1)[0], 460), at("asleep", 0.3, 1)]))
    parts.append(text(560, 454, "asleep, of a suspend", "small"))
    parts.append(line([at("asleep", 1, 0.7), (1215, at("asleep", 1, 0.7)[1]), (1215, at("waking", 1, 0.3)[1]), at("waking", 1, 0.3)]))
    parts.append(text(1220, 200, "wake", "small"))
    parts.append(line([at("waking", 1, 0.7), (1180, at("waking", 1, 0.7)[1]), (1180, at("asleep", 1, 0.3)[1]), at("asleep", 1, 0.3)]))
    parts.append(text(1174, 340, "a fault", "small", "end"))
    parts.append(line([at("waking", 0, 0.5), (at("running", 0.85, 0)[0], 123), at("running", 0.85, 0)]))
    parts.append(text(900, 116, "woken", "small"))
    parts.append(line([at("asleep", 0.7, 1), (at("asleep", 0.7, 1)[0], 485), (70, 485), at("off", 0.18, 1)], "cut"))
    parts.append(text(700, 478, "cut, from any state", "small"))
    write("machine.svg", 1270, 510, parts)


def floors():
    """Returns the floors of docs/ARCHITECTURE.md and their crates, from the lowest up."""
    found = []
    for row in (DOCS / "ARCHITECTURE.md").read_text().splitlines():
        cells = [cell.strip() for cell in row.strip("|").split("|")]
        if row.startswith("| ") and len(cells) == 3 and cells[0] not in ("Floor", "Crate"):
            found.append((cells[0], re.findall(r"`(\w+)`", cells[1])))
        elif found and not row.startswith("|"):
            break
    return found


def lines_of(names, width):
    """Returns the boxes of a floor line by line, each with its place from the left and its width."""
    lines, x = [[]], 0
    for crate in names:
        size = 7.2 * len(crate) + 18
        if x + size > width:
            lines.append([])
            x = 0
        lines[-1].append((x, size, crate))
        x += size + 6
    return lines


def crates():
    rows = floors()
    width = 1240
    parts = [text(20, 28, "The crates by floor", "title")]
    parts.append(text(20, 48, "Code uses crates below it by their public contracts. The way of an image to the disk and back goes through the floors from the top down.", "small"))
    y = 70
    for name, names in reversed(rows):
        lines = lines_of(names, width - 180)
        tall = 18 + 40 * len(lines)
        parts.append(box(20, y, width - 40, tall))
        parts.append(text(30, y + 24, name))
        for k, boxes in enumerate(lines):
            for x, size, crate in boxes:
                parts.append(labelled(150 + x, y + 12 + 40 * k, size, 34, [crate], "numbers" if crate.startswith("tests_") else "page"))
        y += tall + 8
    write("crates.svg", width, y + 12, parts)


if __name__ == "__main__":
    image()
    machine()
    crates()
