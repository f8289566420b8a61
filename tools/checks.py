#!/usr/bin/env python3
"""The repository's own checks, beside the gate: prints a line for each that fails, and ends with status 1 if one did."""
import os
import re
import subprocess
import sys

LONGEST_LINE, LONGEST_FILE, LONGEST_README, LONGEST_CHAIN, MOST_EDITS = 120, 800, 8 * 1024, 10, 8

os.chdir(os.path.join(os.path.dirname(os.path.abspath(__file__)), ".."))
files = subprocess.run(["git", "ls-files"], check=True, capture_output=True, text=True).stdout.split("\n")[:-1]
faults = []


def lines_of(path):
    with open(path, encoding="utf-8") as it:
        return it.read().split("\n")


def crates():
    """Answers each crate of crates.txt with the libraries that it lists."""
    found = {}
    for line in lines_of("crates.txt"):
        if line and not line.startswith("#"):
            name, _, below = line.partition(":")
            found[name.split()[0]] = below.split()
    return found


def chain(name, below):
    return [*max((chain(it, below) for it in below[name] if it in below), key=len, default=[]), name]


listed = crates()
readme = "\n".join(lines_of("README.md"))

if lines_of("HANDLES") != ["Handles allowed: Threads, Wait, Net.", ""]:
    faults.append("HANDLES has another line")
faults += [f"{it} is made by rt, and is committed" for it in files if "/out/" in it]
if len(readme.encode()) > LONGEST_README:
    faults.append(f"README.md has {len(readme.encode())} bytes")

for path in files:
    if not path.endswith((".rt", ".antt")):
        continue
    lines = lines_of(path)
    if len(lines) - 1 > LONGEST_FILE:
        faults.append(f"{path} has {len(lines) - 1} lines")
    if path.endswith(".rt"):
        for number, line in enumerate(lines, 1):
            if len(line) > LONGEST_LINE and not line.lstrip().startswith("ghost use"):
                faults.append(f"{path}:{number} has {len(line)} characters")

# What holds an image is its own matter: contracts speak of it by its view.
for name, below in listed.items():
    for path in files:
        if "image_core" in below and path.startswith(f"crates/{name}/src/") and path.endswith(".rt"):
            found = [number for number, line in enumerate(lines_of(path), 1) if re.search(r"(?<!declared)\.parts\b", line)]
            faults += [f"{path}:{number} names a private field of an image" for number in found]
for number, line in enumerate(lines_of("crates/image_core/src/image.rt"), 1):
    if re.search(r"\.(old|new|now)\.(parts|disk)\b", line):
        faults.append(f"crates/image_core/src/image.rt:{number} names a private field in a clause")

for name in sorted(os.listdir("crates")):
    if name not in listed:
        faults.append(f"crates.txt does not list {name}")
    if f"`{name}`" not in readme:
        faults.append(f"README.md does not name {name}")
    edits = [it for it in files if it.startswith(f"crates/{name}/must-fail/")]
    if len(edits) > MOST_EDITS:
        faults.append(f"{name} has {len(edits)} edits in must-fail/, more than {MOST_EDITS}")
longest = max((chain(it, listed) for it in listed), key=len)
if len(longest) > LONGEST_CHAIN:
    faults.append(f"the chain {' '.join(longest)} is longer than {LONGEST_CHAIN}")

for path in files:
    if not path.endswith(".md"):
        continue
    text = "\n".join(lines_of(path))
    places = {os.path.join(os.path.dirname(path), it) for it in re.findall(r"\]\(([^)#:\s]+)(?:#[^)]*)?\)", text)}
    places |= {it for it in re.findall(r"`((?:docs|tools|bench|crates|interop|\.ci)/[\w./-]+)`", text) if "NAME" not in it and "/out/" not in it}
    places |= {f"crates/{it}" for it in re.findall(r"`(\w+/[\w/]+\.(?:rt|antt))`", text) if it.split("/")[0] in listed}
    faults += [f"{path} names {it}, which is not there" for it in sorted(places) if not os.path.exists(it)]

for it in faults:
    print(f"check: {it}")
sys.exit(bool(faults))
