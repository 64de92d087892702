"""Runs what the documents show and compares what they say with what the programs do.

README.md: runs of a program with their replies, and the code for the panel's programmer.
docs/LISTS.md: scripts, listings and worked examples, as its "How to read the examples" describes them.
examples/: each script with its page, the table of lines and replies and the picture.
Every document: the files that it names are there.

A fence has one of the labels known here; any other is a failure, and so is comparing less than LEAST.
usage, from the top folder: python3 tests/documents.py
"""

import re
import subprocess
import sys
from collections import namedtuple
from itertools import zip_longest
from pathlib import Path

README = Path("README.md")
LISTS = Path("docs/LISTS.md")
EXAMPLES = Path("examples")
PANEL = Path("crates/panel/src/main.rt")

# What the documents have now. Less means that a script, a listing or a picture is no longer found.
LEAST = {"scripts": 45, "listings": 39, "commands": 170, "replies": 370, "pictures": 26, "paths": 50}
counts = dict.fromkeys(LEAST, 0)
wrong = []


def compare(kind, where, said, found):
    """Counts one comparison of lines; the first that differs is wrong."""
    counts[kind] += 1
    for one, other in zip_longest(said, found, fillvalue="nothing"):
        if one != other:
            wrong.append(f"{where}: {kind}: said '{one}', found '{other}'")
            return


def compare_replies(where, said, found):
    """Compares replies one by one."""
    for one, other in zip_longest(said, found, fillvalue="nothing"):
        compare("replies", where, [one], [other])


def run(script, program="panes"):
    """The replies to the lines of a script."""
    text = "".join(line + "\n" for line in script)
    done = subprocess.run([f"crates/{program}/out/{program}"], input=text.encode(), stdout=subprocess.PIPE)
    if done.returncode != 0:
        wrong.append(f"{program} failed with status {done.returncode} on {script[:3]} ..")
    return done.stdout.decode().splitlines()


# ---- Pages

Fence = namedtuple("Fence", "where label lines")


def fences(page, labels):
    """The fenced blocks of a page. Each has one of these labels."""
    found, fence = [], None
    for number, line in enumerate(page.read_text().splitlines(), 1):
        if not line.startswith("```"):
            if fence:
                fence.lines.append(line)
        elif fence:
            found.append(fence)
            fence = None
        else:
            fence = Fence(f"{page}:{number}", line[3:].strip(), [])
            if fence.label not in labels:
                wrong.append(f"{fence.where}: no such label of a fence: '{fence.label}'")
    if fence:
        wrong.append(f"{fence.where}: this fence is left open")
    return found


def check_commands(page):
    """Indented lines `./panes FILE` name a file; with `$ ` before, its replies follow."""
    said = None
    for line in page.read_text().splitlines() + [""]:
        command = re.fullmatch(r"    (\$ )?\./(panes|calls) (\S+)", line)
        if command:
            shown, program, name = command.groups()
            if name != "FILE" and not Path(name).is_file():
                wrong.append(f"{page}: there is no {name}")
            elif shown:
                said = []
        elif said is not None and line.startswith("    "):
            said.append(line.strip())
        elif said is not None:
            counts["scripts"] += 1
            compare_replies(page, said, run(Path(name).read_text().splitlines(), program))
            said = None


def check_readme():
    """The code in README.md is the part of the panel program that its comments mark."""
    check_commands(README)
    shown = fences(README, ["rust"])
    if len(shown) != 1 or not PANEL.is_file():
        wrong.append(f"{README}: one fence rust shows a part of {PANEL}; there are {len(shown)}")
        return
    source = PANEL.read_text().splitlines()
    marks = [line.strip() for line in source]
    first = marks.index("// README: begin") + 1 if "// README: begin" in marks else 0
    last = marks.index("// README: end") if "// README: end" in marks else 0
    if first >= last:
        wrong.append(f"{PANEL}: no part between '// README: begin' and '// README: end'")
    compare("listings", shown[0].where, shown[0].lines, source[first:last])


# ---- Listings: `12: 00 54 05 00 02 00     LINE 5 to the right, 2 down`

LISTED = re.compile(r"([0-9a-f]{2,}): ((?:[0-9a-f]{2} )*[0-9a-f]{2})(?:  +(\S.*))?")


def command_sizes():
    """From the table of all commands in LISTS.md: opcodes and number of parameter words by name."""
    sizes = {}
    for row in re.findall(r"^\| ([0-9A-F, ]+) \| \[(\w+)\]\S* ?[\w, ]*\| (\d) \|", LISTS.read_text(), re.MULTILINE):
        opcodes, name, words = row
        known = sizes.setdefault(name, (set(), int(words)))
        known[0].update(int(opcode, 16) for opcode in opcodes.split(", "))
    return sizes


def read_listing(where, lines, sizes):
    """The bytes of a listing by address. A command named at a line has its opcode and its length."""
    stored = {}
    for line in lines:
        match = LISTED.fullmatch(line)
        if not match:
            wrong.append(f"{where}: no line of a listing: '{line}'")
            continue
        address, data = int(match[1], 16), bytes.fromhex(match[2])
        name = (match[3] or "").split(" ")[0].rstrip(":")
        if name in sizes:
            opcodes, words = sizes[name]
            counts["commands"] += 1
            if data[1] not in opcodes or len(data) != 2 + 2 * words:
                wrong.append(f"{where}: these are not the bytes of {name}: '{line}'")
        for place, byte in enumerate(data, address):
            if place in stored:
                wrong.append(f"{where}: two bytes at {place:x}: '{line}'")
            stored[place] = byte
    return stored


def puts(stored):
    """Lines that put these bytes, a line for each stretch."""
    lines = []
    for place in sorted(stored):
        if place - 1 not in stored:
            lines.append(f"w,0,{place:x},")
        lines[-1] += f"{stored[place]:02x}"
    return lines


def compare_bytes(where, said, found):
    """Compares bytes by address."""
    said, found = [[f"{place:02x}: {stored[place]:02x}" for place in sorted(stored)] for stored in (said, found)]
    compare("listings", where, said, found)


def bytes_put(script):
    """The bytes that the lines `w` of a script put, by address."""
    stored = {}
    for line in script:
        if line.startswith("w,0,"):
            address, data = line.split(",")[2:]
            stored.update(enumerate(bytes.fromhex(data), int(address, 16)))
    return stored


# ---- Pictures

def readings(pane, width, height):
    """The lines that read a pane row by row."""
    return [f"x,{pane},{x},{y}" for y in range(height) for x in range(width)]


def picture(replies, width):
    """The rows of a pane from the replies to its readings: a dot for 0."""
    values = [int(reply.split(",")[2]) for reply in replies]
    digits = ["." if value == 0 else f"{value:x}" for value in values]
    return ["".join(digits[start : start + width]) for start in range(0, len(digits), width)]


# ---- docs/LISTS.md

PREAMBLE_END = 0x12


def check_lists():
    check_commands(LISTS)
    sizes = command_sizes()
    labels = ["script", "script calls", "listing", "replies", "example", "font sheet", "part of the sheet"]
    console, preamble, sheet, parts = [], {}, {}, []
    script, program, unanswered = [], "panes", []
    for fence in fences(LISTS, labels):
        where = fence.where
        if fence.label.startswith("script"):
            script, program = fence.lines, "calls" if fence.label == "script calls" else "panes"
            console = console or script[: script.index("o") + 1]
            unanswered.append(where)
        elif fence.label == "replies":
            counts["scripts"] += 1
            said = [re.split("  +", line)[0] for line in fence.lines]
            compare_replies(where, said, run(script, program))
            del unanswered[-1:]
        elif fence.label == "listing":
            stored = read_listing(where, fence.lines, sizes)
            compare_bytes(where, stored, bytes_put(script))
            preamble = preamble or {place: stored[place] for place in stored if place < PREAMBLE_END}
        elif fence.label == "font sheet":
            sheet = read_listing(where, fence.lines, sizes)
            counts["listings"] += 1
        elif fence.label == "part of the sheet":
            parts.append((where, read_listing(where, fence.lines, sizes)))
        elif fence.label == "example":
            check_example(fence, sizes, console, preamble, sheet)
    for where in unanswered:
        wrong.append(f"{where}: no replies follow this script, so it is not run")
    for where, part in parts:
        compare_bytes(where, part, {place: sheet[place] for place in part if place in sheet})


def check_example(fence, sizes, console, preamble, sheet):
    """Bytes, then the replies to run and look, then the picture, if something is drawn."""
    listing, *rest = [part.split("\n") for part in "\n".join(fence.lines).split("\n\n")]
    said, said_picture = (rest + [[], []])[:2]
    stored = dict(preamble)
    if listing[0] == "(with the font sheet)":
        stored.update(sheet)
        listing = listing[1:]
    example = read_listing(fence.where, listing, sizes)
    if min(example, default=0) != PREAMBLE_END or stored.keys() & example.keys():
        wrong.append(f"{fence.where}: the bytes do not follow the preamble, or lie on the font sheet")
    stored.update(example)
    counts["listings"] += 1

    width, height = [int(field) for field in console[1].split(",")[3:5]]
    before = console + puts(stored) + ["g,0,0"]
    found = run(before + ["r,0,100", "l,0"] + readings(0, width, height))
    accepted = ["o,0"] + ["w,0"] * len(puts(stored)) + ["g,0"]
    counts["scripts"] += 1
    if found[: len(accepted)] != accepted:
        wrong.append(f"{fence.where}: not put and started: {found[: len(accepted)]}")
    shown = len(accepted) + 2
    compare_replies(fence.where, said, found[len(accepted) : shown])
    rows = picture(found[shown:], width)
    while rows and not rows[-1].strip("."):
        rows.pop()
    if rows or said_picture:
        compare("pictures", fence.where, said_picture, rows)


# ---- examples/

ROW = re.compile(r"^\| `([^`]*)` \|.*\| (?:`([^`]*)`)? ?\|$", re.MULTILINE)
READ = re.compile(r"`x,(\d+),0,0` to `x,\1,(\d+),(\d+)`")


def check_example_page(script):
    """The page names its program; the table has the script's lines with their replies; then each pane is read, as the
    picture shows."""
    page = script.with_suffix(".md")
    check_commands(page)
    text = page.read_text()
    programs = re.findall(rf"^    \./(panes|calls) {re.escape(str(script))}$", text, re.MULTILINE)
    if len(programs) != 1:
        wrong.append(f"{page}: one line says which program runs {script}; there are {len(programs)}")
        return
    table = ROW.findall(text)
    panes = [(int(pane), int(x) + 1, int(y) + 1) for pane, x, y in READ.findall(text)]
    lines = [line for line, _ in table]
    for pane in panes:
        lines += readings(*pane)
    compare("scripts", page, lines, script.read_text().splitlines())

    found = run(lines, programs[0])
    said = [reply for _, reply in table if reply]
    compare_replies(page, said, found[: len(said)])
    pictures, start = [], len(said)
    for _, width, height in panes:
        end = start + width * height
        pictures.append(picture(found[start:end], width))
        start = end
    beside = ["|".join(rows) for rows in zip(*pictures)]
    for fence in fences(page, ["picture"]):
        compare("pictures", fence.where, fence.lines, beside)


def check_examples():
    """Every script has a page, every page a script, and README.md of the folder names each."""
    contents = EXAMPLES / "README.md"
    check_commands(contents)
    scripts = sorted(EXAMPLES.glob("*.script"))
    names = [script.stem for script in scripts]
    pages = sorted(page.stem for page in EXAMPLES.glob("*.md") if page != contents)
    listed = sorted(re.findall(r"^\| \[([\w-]+)\]\(\1\.md\) \|", contents.read_text(), re.MULTILINE))
    if names != pages or names != listed:
        wrong.append(f"{EXAMPLES}: scripts {names}, pages {pages}, listed {listed}")
    for script in scripts:
        if script.with_suffix(".md").is_file():
            check_example_page(script)


# ---- Files that the documents name, as `crates/console/src/face.rt` or `crates/*/src`

NAMED = re.compile(r"`((?:crates|tests|tools|bench|reference|examples|docs|\.ci)/[^`\s]*)`")


def check_paths(page):
    """Each file or folder that a page names in quotes is there."""
    for name in NAMED.findall(page.read_text()):
        compare("paths", page, [name], [name] if any(Path().glob(name.rstrip("/"))) else [])


check_readme()
check_lists()
check_examples()
for page in [README, *sorted(Path("docs").glob("*.md")), *sorted(EXAMPLES.glob("*.md"))]:
    check_paths(page)
for kind, least in LEAST.items():
    if counts[kind] < least:
        wrong.append(f"only {counts[kind]} {kind} were compared; there were {least}")
for text in wrong:
    print(text)
said = ", ".join(f"{count} {kind}" for kind, count in counts.items())
print(f"the documents: {said} compared, {len(wrong)} wrong")
sys.exit(1 if wrong else 0)
