#!/usr/bin/env python3
"""Makes what shows docs/speed.tsv, which scripts/speed/measure.py writes: the picture docs/speed.svg, and
the figures of the tables in README.md and docs/PERFORMANCE.md whose first column names a case.

usage: scripts/speed_picture.py [--check]     (with --check: says which of them is old, and writes nothing)"""
import os
import re
import sys

TOP = os.path.dirname(os.path.dirname(os.path.abspath(__file__)))
SHOWN = [
    ("write a file, a sample a call", "write_i16_file"),
    ("read a file, a sample at a time", "read_i16_file"),
    ("write a file, 4096 a call", "write_block_i16_file"),
    ("read a file, 4096 a call", "read_block_i16_file"),
    ("read memory, 32 bits, 4096 a call", "read_block_i32_mem"),
    ("read memory, 24 bits, a sample at a time", "read_i24_mem"),
    ("read memory, 8 bits, a sample at a time", "read_i8_mem"),
    ("Python: read a whole file, int16", "python_read_int16"),
    ("Python: read a whole file, float64", "python_read_float64"),
    ("Python: write a whole file, float32", "python_write_float32"),
    ("Node: make a file of int16", "node_write_int16"),
    ("Node: read planar floats", "node_read_planar_float32"),
]
BARS = [
    ("hound", "hound, proved", "#1b6ca8"),
    ("original", "hound 3.5.1", "#b0b7bf"),
    ("linked whole", "hound 3.5.1, with LTO", "#d5dade"),
    ("libsndfile", "libsndfile, soundfile", "#d99a3c"),
    ("soundfile", "libsndfile, soundfile", "#d99a3c"),
    ("plain loop", "a plain loop", "#8a9a5b"),
]
LEFT, WIDTH, BAR, GAP, TOP_SPACE = 270, 420, 13, 16, 56


def rows():
    with open(os.path.join(TOP, "docs", "speed.tsv")) as file:
        head, *lines = [line.rstrip("\n").split("\t") for line in file]
    figures = {line[0]: dict(zip(head, line)) for line in lines}
    for row in figures.values():
        beside = row["soundfile"] or row["plain loop"]
        row["ratio"] = f"{float(row['hound']) / float(beside):.2f}" if beside else ""
    return figures


def picture():
    figures = rows()
    parts, y = [], TOP_SPACE
    most = max(float(figures[case][name]) for _, case in SHOWN for name, _, _ in BARS if figures[case][name])
    for label, case in SHOWN:
        bars = [
            (figures[case][name], text, colour)
            for name, text, colour in BARS
            if figures[case][name] and not ("_block_" in case and name in ("original", "linked whole"))
        ]
        middle = y + len(bars) * BAR / 2 + 4
        parts.append(f'<text x="{LEFT - 10}" y="{middle:.0f}" text-anchor="end">{label}</text>')
        for value, text, colour in bars:
            length = float(value) / most * WIDTH
            parts.append(
                f'<rect x="{LEFT}" y="{y}" width="{length:.1f}" height="{BAR - 2}" fill="{colour}"><title>{text}: {value} ns</title></rect>'
            )
            parts.append(
                f'<text x="{LEFT + length + 5:.0f}" y="{y + 10}" font-size="10">{float(value):.2g}</text>'.replace(
                    "e+01", "0"
                )
            )
            y += BAR
        y += GAP
    x = LEFT - 262
    legend = []
    for text, colour in dict.fromkeys(bar[1:] for bar in BARS):
        legend.append(
            f'<rect x="{x}" y="32" width="11" height="11" fill="{colour}"/><text x="{x + 16}" y="42">{text}</text>'
        )
        x += 28 + 7 * len(text)
    height = y + 6
    head = (
        f'<svg xmlns="http://www.w3.org/2000/svg" width="760" height="{height}" viewBox="0 0 760 {height}" font-family="sans-serif" font-size="12" fill="#222">\n'
        f'<title>Nanoseconds a sample; shorter is faster</title>\n<rect width="760" height="{height}" fill="#fff"/>\n'
        '<text x="20" y="20" font-size="13" font-weight="bold">Nanoseconds a sample (16 bits, where nothing else is said); shorter is faster</text>\n'
    )
    return head + "\n".join(legend + parts) + "\n</svg>\n"


# The columns of a table, by their heads.
HEADS = {
    "hound, proved": "hound",
    "hound_bindings": "hound",
    "soundfile": "soundfile",
    "a plain loop": "plain loop",
    "ratio": "ratio",
    "hound 3.5.1": "original",
    "with LTO": "linked whole",
    "libsndfile": "libsndfile",
    "instructions": "hound instructions",
    "of hound 3.5.1": "original instructions",
}


def filled(text):
    """A page, with the figures of its tables."""
    figures, heads, lines = rows(), [], []
    for line in text.split("\n"):
        cells = [cell.strip() for cell in line.strip("|").split("|")] if line.startswith("|") else []
        if "hound, proved" in cells or "hound_bindings" in cells:
            heads = cells
        case = re.search(r"`(\w+)`", cells[0]) if cells else None
        if not cells:
            heads = []
        elif heads and case and case.group(1) in figures:
            row = figures[case.group(1)]
            line = "| " + " | ".join([cells[0]] + [row[HEADS[head]] for head in heads[1:]]) + " |"
            line = re.sub(r"\|  (?=\|)", "| ", line)
        lines.append(line)
    return "\n".join(lines)


def main():
    old = []
    for name in ("docs/speed.svg", "README.md", "docs/PERFORMANCE.md"):
        path = os.path.join(TOP, name)
        with open(path) as file:
            text = file.read()
        made = picture() if name.endswith(".svg") else filled(text)
        if made != text:
            old.append(name)
            if sys.argv[1:] != ["--check"]:
                with open(path, "w") as file:
                    file.write(made)
    if old and sys.argv[1:] == ["--check"]:
        sys.exit(f"{', '.join(old)}: not those of docs/speed.tsv: run scripts/speed_picture.py")


main()
