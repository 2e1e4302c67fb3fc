#!/usr/bin/env python3
"""respell.py [ROOT]: brings the repository's own names to the spelling of today's Rattle.

Run once, after the toolchain's port.py. Definitions, fields, lemmas and variables lose their capitals
(`startRead` becomes `start_read`); types, modules and cases keep theirs. Two crates are renamed,
since libraries of the toolchain have their names: hex to hexadecimal, log to log_format.
Functions of src/ have that spelling already, and no string, input or output is touched.
"""
import glob
import os
import re
import subprocess
import sys

CRATES = {"hex": "hexadecimal", "log": "log_format"}

# names of the library of before, where they stand in names of lemmas
LIBRARY = {"getD": "get_or"}

# lemmas whose names port.py gave underscores, and which would fall together with definitions so:
# where they stand
LEMMAS = {
    "entry_of": ["crates/encoding/proofs/Decoded.antt", "crates/encoding/proofs/ValidIff.antt"],
    "has_parts": ["crates/log/proofs/Rows.antt"],
    "is_read": ["crates/findings/proofs/WellFormed.antt"],
    "key_in": ["crates/check_stamps/proofs/Keys.antt"],
    "no_write": ["crates/condition3/proofs/Sound/DeliverFirst.antt", "crates/log/proofs/Encoding.antt"],
    "number_fits": ["crates/condition3/proofs/Runs/Shows.antt", "crates/condition3/proofs/Runs/WriteShows.antt", "crates/protocol/proofs/Kept/Starts.antt"],
    "shown_read": ["crates/second_part/proofs/Encodes.antt"],
    "some_item": ["crates/protocol/proofs/CheckWords.antt"],
    "stored_bytes": ["crates/frame_reader/proofs/read_into/Proof.antt", "crates/store_frames/proofs/Reading.antt"],
    "tables_after": ["crates/block_calls/proofs/Accepted.antt", "crates/block_calls/proofs/Given.antt"],
    "text_at": ["crates/judge_scan/proofs/Scanning.antt"],
    "up_to": ["crates/judge_scan/proofs/reached/Proof.antt"],
    "write_bytes": ["crates/log/proofs/Encoding.antt"],
}

WORD = re.compile(r"(?<![\w'])[^\W\d_][\w']*")
CAMEL = re.compile(r"[a-z][a-z0-9_']*[A-Z]")

# what speaks of definitions by their names besides the crates
PAGES = ["README.md", "docs/*.md", "docs/changes/*.md", "tools/layout_picture.py", "host/*.h", "crates/*/must-fail/*.edit", "mutants/*/*.edit"]


def snake(name):
    return LIBRARY.get(name) or re.sub(r"(?<=[a-z0-9])[A-Z]", lambda m: "_" + m.group().lower(), name)


def files(patterns):
    return sorted(f for p in patterns for f in glob.glob(p, recursive=True) if os.path.isfile(f))


def rewrite(path, change):
    with open(path, encoding="utf-8") as f:
        old = f.read()
    new = change(old)
    if new != old:
        with open(path, "w", encoding="utf-8") as f:
            f.write(new)


def crate_names(text):
    for old, new in CRATES.items():
        text = re.sub(rf"\bRattle\.{old}\b", f"Rattle.{new}", text)
        text = re.sub(rf"Rattle\u00b7{old}\b", f"Rattle.{new}", text)
        text = re.sub(rf"(?<![\w:.]){old}::", f"{new}::", text)
        text = re.sub(rf"\bcrates/{old}\b", f"crates/{new}", text)
        text = re.sub(rf"\bmutants/{old}\b", f"mutants/{new}", text)
        text = re.sub(rf"(?<![\w/.]){old}/(specs|proofs|src|must-fail)\b", rf"{new}/\1", text)
    return text


def listed(line):
    if line.startswith("#") or ":" not in line:
        return line
    name, deps = line.split(":", 1)
    return CRATES.get(name, name) + ":" + "".join(" " + CRATES.get(d, d) for d in deps.split())


def main():
    os.chdir(sys.argv[1] if len(sys.argv) > 1 else ".")
    sources = files(["crates/*/src/**/*.rt", "crates/*/specs/**/*.antt", "crates/*/proofs/**/*.antt"])
    names = set()
    for path in sources:
        with open(path, encoding="utf-8") as f:
            names |= {w for w in WORD.findall(f.read()) if CAMEL.match(w)}
    known = {n: snake(n) for n in names}
    for lemma, paths in LEMMAS.items():
        for path in paths:
            rewrite(path, lambda t: re.sub(rf"(?<![\w'-]){lemma}(?![\w'-])", lemma + "_lem", t))

    def spelled(text):
        return crate_names(WORD.sub(lambda m: known.get(m.group(), m.group()), text))

    for path in sources + files(PAGES):
        rewrite(path, spelled)
    rewrite("crates.txt", lambda t: "\n".join(listed(l) for l in t.split("\n")))
    for old, new in CRATES.items():
        for folder in ("crates", "mutants"):
            if os.path.isdir(f"{folder}/{old}"):
                subprocess.run(["git", "mv", f"{folder}/{old}", f"{folder}/{new}"], check=True)
    print(f"{len(known)} names")


if __name__ == "__main__":
    main()
