#!/usr/bin/env python3
"""Respells the repository's own definitions and lemmas: words in snake case, types and facts in camel case.

Run once at the top of the repository, after port.py. A name counts as the repository's own if a file of a crate's
specs/ or proofs/ declares it; names of the library, goals and names that Rattle makes stay. A dash stays only between
two names that a lemma joins (JOINED). Says which names fall together, and then changes nothing.
"""

import glob
import re
import sys

# Lemmas whose name joins those of two functions, the outer one first.
JOINED = {
    "length-held-after": "length-held_after",
    "length-ticked": "length-ticked",
    "length-on-named": "length-on_named",
    "length-in-turn": "length-in_turn",
    "length-by-record": "length-by_record",
    "length-by-records": "length-by_records",
    "length-put": "length-put",
    "length-stored": "length-stored",
    "length-after": "length-after",
    "four-put": "four-put",
    "joined-append": "joined-append",
    "some-hears-append": "some_hears-append",
    "count-at-append": "count_at-append",
    "stands-append": "stands-append",
    "listed-append": "listed-append",
}

STOP = r"\s(){}\[\];,."
DECLARED = re.compile(
    r"^\s*(?:(?:abbrev|unfoldable|pub)\s+)*(?:record\s+|data\s+)?"
    r"([^%s:=λ-][^%s:=λ]*-[^%s:=λ]*)\s+(?::\s|\(|\{)" % (STOP, STOP, STOP)
)
LET = re.compile(r"\blet\s+([^%s:=]*-[^%s:=]*)\s*[:=]" % (STOP, STOP))
ALIAS = re.compile(r"\bas\s+([^%s:=]*-[^%s:=]*)[,}]" % (STOP, STOP))
IMPORT = re.compile(r"^\s*(?:pub\s+)?use\s+(?!Rattle\.(?:%s)\.)[^{]*\{([^}]*)\}", re.M)


def crates():
    with open("crates.txt", encoding="utf-8") as file:
        lines = [line.split("#")[0] for line in file]
    return [line.split(":")[0].split()[0] for line in lines if ":" in line]


def proof_files():
    return sorted(glob.glob("crates/*/specs/**/*.antt", recursive=True)) + sorted(
        glob.glob("crates/*/proofs/**/*.antt", recursive=True)
    )


def text_of(path):
    with open(path, encoding="utf-8") as file:
        return file.read()


def respelled(name):
    if name in JOINED:
        return JOINED[name]
    if name[0].isupper():
        return "".join(part[0].upper() + part[1:] for part in name.split("-"))
    return name.replace("-", "_")


def library_names(texts, own_crates):
    pattern = re.compile(IMPORT.pattern % "|".join(own_crates), re.M)
    found = set()
    for text in texts:
        for group in pattern.findall(text):
            found |= {name.strip() for name in group.split(",")}
    return found


def declared_names(texts):
    found = set()
    for text in texts:
        for line in text.split("\n"):
            found |= set(ALIAS.findall(line))
            if re.match(r"\s*(--|use |pub use )", line) or re.search(r":\s*(goal|need|given)\.", line):
                continue
            match = DECLARED.match(line)
            if match:
                found.add(match.group(1))
            found |= set(LET.findall(line))
    return found


def main():
    texts = [text_of(path) for path in proof_files()]
    own = declared_names(texts) - library_names(texts, crates())
    own = {name for name in own if not re.match(r"[0-9]|(returns|loop|in|if|else|then)-", name)} | (
        own & {"in-common", "in-mode", "in-range", "in-turn", "in-turn-more", "in-turn-none", "in-turn-keeps", "in-turn-single"}
    )
    new = {name: respelled(name) for name in own}
    words = set()
    for text in texts:
        # a path of a module may have a function's name
        words |= set(re.split("[%s]+" % STOP, re.sub(r"(?m)^\s*(?:pub )?use [^{\n]*", "", text)))
    together = [n for n in own if new[n] != n and new[n] in words]
    twice = [n for n in own if sum(1 for m in own if new[m] == new[n]) > 1]
    if together or twice:
        sys.exit("these fall together with other names: " + ", ".join(sorted(set(together + twice))))
    names = sorted((n for n in own if new[n] != n), key=len, reverse=True)
    antt = re.compile("(?<![^%s⌜⌝→λ])(%s)(?![^%s⌜⌝])" % (STOP, "|".join(map(re.escape, names)), STOP))
    prose = re.compile("(?<=[`.{ (])(%s)(?=[`.,} ):])" % "|".join(map(re.escape, names)))
    paths = proof_files() + glob.glob("crates/*/src/**/*.rt", recursive=True) + glob.glob("crates/*/must-fail/*.edit")
    for path in sorted(paths):
        change(path, antt, new)
    for path in sorted(glob.glob("docs/*.md")):
        change(path, re.compile("`[^`\n]*`"), None, lambda m: prose.sub(lambda n: new[n.group(1)], m.group(0)))
    print(len(names), "names respelled")


def change(path, pattern, new, by=None):
    text = text_of(path)
    if path.endswith(".rt"):
        lines = [line if line.lstrip().startswith("//") else pattern.sub(lambda m: new[m.group(1)], line) for line in text.split("\n")]
        done = "\n".join(lines)
    else:
        done = pattern.sub(by or (lambda m: new[m.group(1)]), text)
    if done != text:
        with open(path, "w", encoding="utf-8") as file:
            file.write(done)


main()
