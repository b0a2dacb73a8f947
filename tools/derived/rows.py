"""The rows: what types that derive must read and write. README.md says what a row is."""
import json
import os
import re
from collections import namedtuple

import programs

ROWS = os.path.join(programs.HERE, "rows")
PIECE = re.compile(r"\\\*(\d+)\(([^()]*)\)")
ESCAPE = re.compile(r"\\(?:u\{([0-9a-f]+)\}|x([0-9a-f]{2})|(.))")
PLAIN = {"n": b"\n", "r": b"\r", "t": b"\t"}
Row = namedtuple("Row", "place asked text ours rust")


def unescaped(said):
    """Answers the bytes that a text of a row stands for."""
    said = PIECE.sub(lambda found: found[2] * int(found[1]), said)
    made, at = b"", 0
    for found in ESCAPE.finditer(said):
        made += said[at:found.start()].encode()
        code, byte, plain = found.groups()
        if code:
            made += chr(int(code, 16)).encode()
        else:
            made += bytes([int(byte, 16)]) if byte else PLAIN.get(plain, (plain or "").encode())
        at = found.end()
    return made + said[at:].encode()


def escaped(made):
    """Answers how a row has these bytes."""
    said = made.decode(errors="backslashreplace").replace("\\", "\\\\")
    return said.replace("\n", "\\n").replace("\r", "\\r").replace("\t", "\\t")


def text_of(said, form):
    """Answers the bytes behind `: `, or those of the file behind ` < `."""
    if form == "<":
        with open(os.path.join(ROWS, said), "rb") as file:
            return file.read()
    return unescaped(said)


def answer(line):
    """Answers a line of a row as a kind and bytes."""
    kind, _, said = line.partition(" ")
    if said.startswith("< "):
        return kind, text_of(said[2:], "<")
    return kind, unescaped(said)


def rows_of(path):
    with open(path, encoding="utf-8") as file:
        blocks = re.split(r"\n\s*\n", file.read())
    for block in blocks:
        lines = [line for line in block.splitlines() if line and not line.startswith("#")]
        if not lines:
            continue
        head = re.fullmatch(r"(read(?:_rows_first)? .*?)(?: (<) |: ?)(.*)", lines[0])
        asked, text = (head[1], text_of(head[3], head[2])) if head else (lines[0], b"")
        rust = [line[5:] for line in lines[1:] if line.startswith("rust ")]
        ours = [answer(line) for line in lines[1:] if not line.startswith("rust ")]
        place = f"{os.path.basename(path)}: {lines[0]}"
        yield Row(place, asked, text, ours, rust)


def arms(rows):
    """Answers the arms of the programs, one for each kind of row."""
    made = {}
    for row in rows:
        how, _, what = row.asked.partition(" ")
        call = f"{how}::<{what}>(rt, alloc, text)" if how.startswith("read") else f"{how}(rt, alloc, &{what})"
        made[row.asked] = f"        {json.dumps(row.asked, ensure_ascii=False)} => {call},\n"
    return "".join(made.values())


def source(name, rows):
    return programs.text_of(name).replace("        // ARMS\n", arms(rows))


def is_tried(row):
    """Answers whether Rust's serde has the type and the call of a row."""
    return row.rust != ["not tried"] and "_rows_first " not in row.asked


def built(basic_toml, rows):
    """Builds ours, and that over Rust's serde where its source is given."""
    types = programs.text_of("types.rs")
    ours = programs.ours("derived_rows", {"main.rt": source("ours.rs", rows), "types.rt": types}, "-O0")
    if not basic_toml:
        return ours, None
    of_rust = source("theirs.rs", [row for row in rows if is_tried(row)])
    return ours, programs.theirs("derived_rows_of_rust", {"main.rs": of_rust, "types.rs": types}, basic_toml)


def all_rows():
    files = sorted(file for file in os.listdir(ROWS) if file.endswith(".rows"))
    return [row for file in files for row in rows_of(os.path.join(ROWS, file))]
