#!/usr/bin/env python3
"""Draws docs/architecture.svg from crates.txt, and holds the pages about the crates to it.

    tools/architecture.py            fails where picture or pages are stale (the same as --check)
    tools/architecture.py --write    makes the picture and README.md's table anew

crates.txt has a comment line for each group ('# model'), and each crate stands below those that it stands on. The picture has a panel for each group.
Inside a panel an arrow leads from a crate to those that stand on it, and what follows from other arrows is left out; what a crate takes from another
group is written under its name. docs/ARCHITECTURE.md has a row for each crate, written by hand: what is held is that none is missing, too many or
in another order, and that each file and each definition that a page below cites is there.
"""
import re
import sys
from pathlib import Path

TOP = Path(__file__).resolve().parent.parent
PICTURE = TOP / "docs" / "architecture.svg"
PAGE = TOP / "docs" / "ARCHITECTURE.md"
README = TOP / "README.md"
CITING = [PAGE, TOP / "CONTRIBUTING.md"]
# The groups: what each holds, and its colours (panel, line, text).
GROUPS = {
    "numerics": ("numbers exact and rounded, loops and rows, the tests that refuse a number", "#eef3fb", "#7c9ccc", "#23497f"),
    "model": ("the cells: single-particle, electrolyte, Doyle-Fuller-Newman, their runs", "#eef8ee", "#7fb583", "#22642a"),
    "boundary": ("the calls from C, on images of the records", "#fdf4e7", "#d6a55c", "#7d4e09"),
    "laws": ("what is proved beyond the contracts; no code", "#f6effa", "#ab86c6", "#5d2f80"),
    "programs": ("a discharge, a recorded load or a charger's phases as rows, with their libraries; the replay of the oracle's list", "#fbeeee", "#cf8b8b", "#8a2b2b"),
}
BEGIN, END = "<!-- made by tools/architecture.py -->", "<!-- end -->"


def fail(message):
    sys.exit(f"architecture: {message}")


# ---- crates.txt

def read_crates():
    """Group to its crates, in order; and crate to the crates of the repository that it stands on."""
    groups, stands_on, group = {}, {}, None
    for line in (TOP / "crates.txt").read_text(encoding="utf-8").splitlines():
        mark = re.fullmatch(r"# (\w+)", line)
        if mark:
            if mark.group(1) not in GROUPS:
                fail(f"crates.txt: {mark.group(1)} is no group; the groups: {', '.join(GROUPS)}")
            group = groups.setdefault(mark.group(1), [])
        name, colon, rest = line.split("#")[0].partition(":")
        if not colon:
            continue
        name = name.split()[0]
        if group is None:
            fail(f"crates.txt: {name} stands in no group (a comment line with one of: {', '.join(GROUPS)})")
        group.append(name)
        below = [c for c in rest.split() if (TOP / "crates" / c).is_dir()]
        late = [c for c in below if c not in stands_on]
        if late:
            fail(f"crates.txt: {name} stands on {', '.join(late)}, listed below it")
        stands_on[name] = below
    return groups, stands_on


def reduced(stands_on):
    """The same without what follows: b is left out of a's where another of a's stands on it."""
    below = {}
    for name, direct in stands_on.items():  # each after those that it stands on
        below[name] = set(direct).union(*(below[d] for d in direct)) if direct else set()
    return {n: [d for d in direct if not any(d in below[e] for e in direct)] for n, direct in stands_on.items()}


# ---- the layout of one panel: columns by depth, long arrows through places of their own

CHAR, SMALL = 7.3, 5.9          # width of a character of a name, of a note
GAP_X, GAP_Y, PAD = 40, 13, 16  # between columns, between boxes, panel's edge
HEAD = 34                       # a panel's title


class Box:
    def __init__(self, name, notes=()):
        self.name, self.notes = name, list(notes)
        self.real = name is not None
        self.w = max([len(name) * CHAR + 16] + [len(" ".join(line)) * SMALL + 16 for line in self.notes]) if self.real else 0
        self.h = (25 + 13 * len(self.notes)) if self.real else 4
        self.left, self.right = [], []
        self.x = self.y = self.order = 0.0


def wrapped(names, width=25):
    lines = []
    for name in names:
        if lines and len(" ".join(lines[-1])) + 1 + len(name) <= width:
            lines[-1].append(name)
        else:
            lines.append([name])
    return lines


def depths(names, below):
    depth = {}
    for n in names:
        depth[n] = 1 + max((depth[d] for d in below[n]), default=-1)
    for n in reversed(names):  # a crate with nothing before it goes next to the first that stands on it
        above = [depth[m] for m in names if n in below[m]]
        if not below[n] and above:
            depth[n] = min(above) - 1
    return depth


def crossings(columns):
    count = 0
    for column in columns:
        ends = [(i, b.order) for i, a in enumerate(column) for b in a.right]
        count += sum(1 for k, (i, p) in enumerate(ends) for j, q in ends[:k] if (i - j) * (p - q) < 0)
    return count


def number(columns):
    for column in columns:
        for i, box in enumerate(column):
            box.order = i


def sort_columns(columns):
    """Fewest crossings found by sweeps that put each box at the mean of its neighbours."""
    number(columns)
    best, kept = crossings(columns), [list(c) for c in columns]
    for sweep in range(40):
        forward = sweep % 2 == 0
        for column in columns if forward else reversed(columns):
            def mean(box):
                near = box.left if forward else box.right
                return sum(b.order for b in near) / len(near) if near else box.order
            column.sort(key=mean)
            for i, box in enumerate(column):
                box.order = i
        count = crossings(columns)
        if count < best:
            best, kept = count, [list(c) for c in columns]
    for column, order in zip(columns, kept):
        column[:] = order
    number(columns)


def settle(column, wanted):
    """Heights in the column's order, apart enough, each as near its wanted one as the others let it."""
    blocks = []  # (sum of wanted tops, boxes), merged while they overlap
    for box in column:
        block = [wanted[box] - box.h / 2, 1, [(box, 0.0)], box.h + GAP_Y]
        while blocks and blocks[-1][0] / blocks[-1][1] + blocks[-1][3] > block[0] / block[1]:
            first = blocks.pop()
            shift = first[3]
            block = [first[0] + block[0] - shift * block[1], first[1] + block[1], first[2] + [(b, o + shift) for b, o in block[2]], shift + block[3]]
        blocks.append(block)
    for total, count, boxes, _ in blocks:
        for box, offset in boxes:
            box.y = total / count + offset


def panel(names, below, notes):
    """The boxes of a group by column, with their places from the panel's corner; its arrows; its size."""
    depth = depths(names, below)
    columns = [[] for _ in range(max(depth.values()) + 1)]
    box = {n: Box(n, notes[n]) for n in names}
    for n in names:
        columns[depth[n]].append(box[n])
    arrows = []
    for n in names:
        for d in below[n]:
            chain = [box[d]] + [Box(None) for _ in range(depth[n] - depth[d] - 1)] + [box[n]]
            for k, middle in enumerate(chain[1:-1]):
                columns[depth[d] + 1 + k].append(middle)
            for a, b in zip(chain, chain[1:]):
                a.right.append(b)
                b.left.append(a)
            arrows.append(chain)
    sort_columns(columns)
    for column in columns:
        settle(column, {b: 48.0 * b.order for b in column})
    for sweep in range(60):
        for column in columns if sweep % 2 == 0 else reversed(columns):
            wanted = {}
            for b, before in zip(column, [None] + column):  # one with no arrow goes right below the one before it
                near = b.left + b.right
                alone = before.y + before.h + GAP_Y + b.h / 2 if before else b.h / 2
                wanted[b] = sum(o.y + o.h / 2 for o in near) / len(near) if near else alone
            settle(column, wanted)
    low = min(b.y for c in columns for b in c if b.real)
    x = PAD
    for column in columns:
        width = max(b.w for b in column)
        for b in column:
            b.x, b.y, b.w = x, b.y - low + HEAD, width if not b.real else b.w
        x += width + GAP_X
    return columns, arrows, x - GAP_X + PAD, max(b.y + b.h for c in columns for b in c if b.real) + PAD


# ---- the picture

def curve(points):
    out = [f"M{points[0][0]:.1f} {points[0][1]:.1f}"]
    for (a, b), (c, d) in zip(points, points[1:]):
        m = (a + c) / 2
        out.append(f"C{m:.1f} {b:.1f} {m:.1f} {d:.1f} {c:.1f} {d:.1f}")
    return " ".join(out)


def draw_panel(group, shape, x, y, w, h, group_of):
    columns, arrows, _, _ = shape
    title, fill, line, ink = GROUPS[group]
    out = [f'<rect x="{x:.1f}" y="{y:.1f}" width="{w:.1f}" height="{h:.1f}" rx="8" fill="{fill}" stroke="{line}"/>',
           f'<text x="{x + PAD:.1f}" y="{y + 21:.1f}" font-size="14" fill="{ink}"><tspan font-weight="bold">{group}</tspan>'
           f'<tspan dx="10" font-size="12">{title}</tspan></text>']
    for chain in arrows:
        points = [(x + chain[0].x + chain[0].w, y + chain[0].y + chain[0].h / 2)]
        for b in chain[1:-1]:
            points += [(x + b.x, y + b.y + b.h / 2), (x + b.x + b.w, y + b.y + b.h / 2)]
        points.append((x + chain[-1].x - 1, y + chain[-1].y + chain[-1].h / 2))
        out.append(f'<path d="{curve(points)}" fill="none" stroke="{line}" stroke-width="1.4" marker-end="url(#{group})"/>')
    for b in (b for column in columns for b in column if b.real):
        out.append(f'<rect x="{x + b.x:.1f}" y="{y + b.y:.1f}" width="{b.w:.1f}" height="{b.h}" rx="4" fill="white" stroke="{line}"/>')
        out.append(f'<text x="{x + b.x + 8:.1f}" y="{y + b.y + 17:.1f}" class="name" fill="{ink}">{b.name}</text>')
        for k, names in enumerate(b.notes):
            spans = " ".join(f'<tspan fill="{GROUPS[group_of[n]][3]}">{n}</tspan>' for n in names)
            out.append(f'<text x="{x + b.x + 8:.1f}" y="{y + b.y + 30 + 13 * k:.1f}" class="note">{spans}</text>')
    return out


def thick(x1, y1, x2, y2):
    return f'<path d="M{x1:.1f} {y1:.1f} L{x2:.1f} {y2:.1f}" stroke="#555" stroke-width="5" marker-end="url(#group)"/>'


def picture(groups, stands_on):
    direct = reduced(stands_on)
    group_of = {c: g for g, crates in groups.items() for c in crates}
    inside = {n: [d for d in ds if group_of[d] == group_of[n]] for n, ds in direct.items()}
    notes = {n: wrapped([d for d in ds if group_of[d] != group_of[n]]) for n, ds in direct.items()}
    shapes = {g: panel(crates, inside, notes) for g, crates in groups.items()}
    size = {g: (max(shapes[g][2], 6.3 * len(GROUPS[g][0]) + 9 * len(g) + 60), shapes[g][3]) for g in groups}
    above = {g: sorted({group_of[d] for c in groups[g] for d in stands_on[c]} - {g}, key=list(groups).index) for g in groups}
    row_of = {}
    for g in groups:  # a group goes one row below those that it stands on
        row_of[g] = 1 + max((row_of[o] for o in above[g]), default=-1)
    place, y = {}, 20.0
    for row in range(max(row_of.values()) + 1):
        x, tall = 20.0, max(size[g][1] for g in groups if row_of[g] == row)
        for g in (g for g in groups if row_of[g] == row):
            place[g] = (x, y, *size[g])
            x += size[g][0] + 46
        y += tall + 46
    full = max(x + w for x, _, w, _ in place.values())
    out = []
    for g, others in reduced({g: above[g] for g in groups}).items():
        x, top, w, _ = place[g]
        for o in others:
            ox, oy, ow, oh = place[o]
            middle = (max(x, ox) + min(x + w, ox + ow)) / 2
            out.append(thick(middle, oy + oh + 2, middle, top - 12))
    for g in groups:
        out += draw_panel(g, shapes[g], *place[g], group_of)
    heads = "".join(f'<marker id="{i}" viewBox="0 0 10 10" refX="9" refY="5" markerWidth="{s}" markerHeight="{s}" orient="auto">'
                    f'<path d="M0 0 L10 5 L0 10 z" fill="{c}"/></marker>'
                    for i, c, s in [(g, GROUPS[g][2], 6) for g in groups] + [("group", "#555", 3)])
    width, height = full + 20, y - 46 + 20
    legend = ["A group stands on the groups above that its arrow comes from,",
              "a crate on the crates that its arrows come from, layer by layer,",
              "and on the small names under it, which are of other groups.",
              "What follows from other arrows is left out."]
    first = place[list(groups)[0]]  # beside the first panel, or under all
    lx, ly = (first[0] + first[2] + 24, first[1] + 30) if width - first[0] - first[2] > 380 else (20, height + 4)
    height = max(height, ly + 18 * len(legend))
    return "\n".join([
        f'<svg xmlns="http://www.w3.org/2000/svg" viewBox="0 0 {width:.0f} {height:.0f}" width="{width:.0f}" height="{height:.0f}"'
        ' font-family="Helvetica, Arial, sans-serif">',
        "<!-- made by tools/architecture.py from crates.txt -->",
        "<style>.name { font: bold 12px Menlo, 'DejaVu Sans Mono', monospace } .note { font: 9.5px Menlo, 'DejaVu Sans Mono', monospace }</style>",
        f"<defs>{heads}</defs>",
        f'<rect width="{width:.0f}" height="{height:.0f}" fill="white"/>',
        *out,
        *(f'<text x="{lx:.1f}" y="{ly + 18 * k:.1f}" font-size="13" fill="#333">{line}</text>' for k, line in enumerate(legend)),
        "</svg>", ""])


# ---- the pages

def short_table(groups):
    rows = ["| group | holds | crates |", "|---|---|---|"]
    rows += [f"| {g} | {GROUPS[g][0]} | {', '.join(f'`{c}`' for c in crates)} |" for g, crates in groups.items()]
    return "\n".join([BEGIN, *rows, END])


def with_table(text, table):
    return re.sub(re.escape(BEGIN) + ".*?" + re.escape(END), lambda _: table, text, flags=re.S)


def rows_of(page):
    """The crates that the page's tables have under each group's heading, in order."""
    found, group = {}, None
    for line in page.splitlines():
        head = re.match(r"#+ (\w+)", line)
        if head:
            group = head.group(1).lower()
        row = re.match(r"\| `(\w+)` \|", line)
        if row and group in GROUPS:
            found.setdefault(group, []).append(row.group(1))
    return found


def declared(path):
    text = path.read_text(encoding="utf-8")
    names = set(re.findall(r"\b(?:fn|struct|enum|const|static)\s+(\w+)", text))
    names |= set(re.findall(r"^\s*(?:(?:unfoldable|abbrev|pub|record|data|module|ruleset)\s+)*([^\s(){}.;,@\"]+)\s*[:(=]", text, re.M))
    names |= set(re.findall(r"^\s*(\w+)\(\) \{", text, re.M))
    return {n.strip("«»") for n in names}


def stale_citations(page):
    """Files that a page names and that are not there; `FILE: a, b` names definitions of the file."""
    text = page.read_text(encoding="utf-8")
    for cited in re.findall(r"`((?:crates|harness|tools|docs|\.ci)/[^`]*)`", text):
        name, _, items = cited.partition(": ")
        if re.search(r"[{*]|[A-Z]{4,}(?!\.md)", name):  # a pattern, not a file
            continue
        path = TOP / name.split(" ")[0]
        if not path.exists():
            yield f"{page.name}: there is no {name}"
            continue
        for item in filter(None, items.split(", ")):
            if item not in declared(path):
                yield f"{page.name}: {name} has no {item}"


def main():
    groups, stands_on = read_crates()
    drawn = picture(groups, stands_on)
    readme = README.read_text(encoding="utf-8")
    if "--write" in sys.argv:
        PICTURE.write_text(drawn, encoding="utf-8")
        README.write_text(with_table(readme, short_table(groups)), encoding="utf-8")
        return
    wrong = []
    if not PICTURE.exists() or PICTURE.read_text(encoding="utf-8") != drawn:
        wrong.append("docs/architecture.svg is not crates.txt's picture: tools/architecture.py --write")
    if short_table(groups) not in readme:
        wrong.append("README.md's table of crates is not crates.txt's: tools/architecture.py --write")
    rows = rows_of(PAGE.read_text(encoding="utf-8"))
    for g, crates in groups.items():
        has = rows.get(g, [])
        if has != crates:
            lost, more = [c for c in crates if c not in has], [c for c in has if c not in crates]
            wrong.append(f"docs/ARCHITECTURE.md, {g}: " + "; ".join(
                [f"no row for {', '.join(lost)}"] * bool(lost) + [f"{', '.join(more)} stands there"] * bool(more) or ["rows in another order than crates.txt"]))
    for page in CITING:
        wrong += stale_citations(page)
    if wrong:
        fail("\n    ".join(wrong))


if __name__ == "__main__":
    main()
