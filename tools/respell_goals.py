#!/usr/bin/env python3
"""Respells the parts of goals' names that come from the source as the source spells them: `all-zero` as `all_zero`.

Run once at the top of the repository, after rename_specs.py. Only files of answers and invariants are turned.
"""

import glob
import re

DELIMITERS = r"\s(){}\[\];,."


def source_names():
    names = set()
    for path in glob.glob("crates/*/src/**/*.rt", recursive=True):
        with open(path, encoding="utf-8") as file:
            names |= set(re.findall(r"\b[A-Za-z0-9]*[a-z0-9]_[A-Za-z0-9_]*\b", file.read()))
    return {name.replace("_", "-"): name for name in names}


def main():
    names = source_names()
    longest = sorted(names, key=len, reverse=True)
    inner = re.compile("(?<![A-Za-z0-9_])(%s)(?![A-Za-z0-9_])" % "|".join(map(re.escape, longest)))
    token = re.compile(r"[^%s]+-[^%s]+" % (DELIMITERS, DELIMITERS))
    for path in glob.glob("crates/*/proofs/**/*.antt", recursive=True):
        if path.split("/")[-1] not in ("Answers.antt", "Invariants.antt"):
            continue
        with open(path, encoding="utf-8") as file:
            lines = file.read().split("\n")
        done = [
            line
            if line.startswith(("use ", "--")) and "Goals" not in line
            else token.sub(lambda m: inner.sub(lambda n: names[n.group(1)], m.group(0)), line)
            for line in lines
        ]
        if done != lines:
            with open(path, "w", encoding="utf-8") as file:
                file.write("\n".join(done))


main()
