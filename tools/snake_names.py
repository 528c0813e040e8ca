#!/usr/bin/env python3
"""Writes this repository's own definitions, lemmas, fields and constructors in snake case, once, right after port.py.

usage: python3 tools/snake_names.py           at the top of the repository; --look prints what falls together and writes nothing

A word of an .antt file is renamed where it has a dash between letters, or a capital behind a small first letter, and no module of the library has it:
`arrive-old` becomes `arrive_old`, `keptMachine` becomes `kept_machine`. Words that stand in files Proof.antt alone are goals' names and stay, as do modules and
types, functions of src/, exported names and strings. It writes crates/*/{specs,proofs,src}; in comments it goes by words in backticks.
"""

import collections
import glob
import re
import sys

# Lemmas whose name would fall together with that of a definition, and what else would.
LEMMAS = """
    all-below always-hopeless bar-kind book-letters card-length cardOf-card close-kind concat-stage erase-stage first-card first-from flag-bit item-kind known-count left-small less-number letter-kind
    letters-many live-next mark-at name-kind name-slot no-letters number-bytes open-kind pair-stage put-bytes right-small row-long run-start star-stage then-made two-forbidden two-obliged
    any_below counts_of flag_at is_name marked_row next_place run_on
""".split()
CLASH = {word: {"cardOf-card": "card_of_card"}.get(word, word.replace("-", "_")) + "_lem" for word in LEMMAS} | {
    "smallest-of": "smallest_in_bound",
    "isAllowed": "allowed_verdict",
    "isUnfinished": "unfinished_verdict",
    "isHopeless": "hopeless_verdict",
}
# In one file alone.
HERE = {"crates/factor/specs/Factor.antt": {"is_none": "answers_none"}}

TOKEN = re.compile(r"[^\s(){}\[\],;.\"«»`|]+")
OURS = re.compile(r"[A-Za-z0-9'_₀-₉-]+")


WHOLE = {"noA": "no_a", "noBBehindA": "no_b_behind_a", "noAAtFirst": "no_a_at_first"}


def snake(word):
    if word in WHOLE:
        return WHOLE[word]
    word = word.replace("getD", "get_or").replace("-", "_")
    if re.match(r"[a-z]", word):
        word = re.sub(r"(?<=[a-z0-9'])([A-Z])(?=[a-z0-9'])", lambda m: "_" + m.group(1).lower(), word)
        word = re.sub(r"(?<=[a-z0-9'])([A-Z])(?![a-z0-9'])", lambda m: "_" + m.group(1), word)
    return word


def uncommented(text):
    return "\n".join("" if l.lstrip().startswith("--") else re.sub(r"(^|\s)--\s.*$", "", l) for l in text.split("\n"))


def crates():
    with open("crates.txt") as f:
        return {l.split(":")[0].split()[0] for l in f if ":" in l and not l.startswith("#")}


def wanted(word):
    return OURS.fullmatch(word) and (re.search(r"\w-\w", word) or re.match(r"[a-z][\w']*[A-Z]", word))


def names():
    """The words to rename, those that the library has too by the files that take them from it, and all words of .antt files."""
    own, library, found, every, declared = crates(), collections.defaultdict(set), collections.defaultdict(set), set(), set()
    for path in sorted(glob.glob("crates/**/*.antt", recursive=True)):
        if "/out/" in path:
            continue
        with open(path, encoding="utf-8") as f:
            text = uncommented(f.read())
        for m in re.finditer(r"^use ([^\s{]+?)\.?\{([^}]*)\}", text, re.M | re.S):
            parts = m.group(1).split(".")
            if parts[0] != "Rattle" or parts[1] not in own:
                for x in m.group(2).split(","):
                    library[x.strip().split(" as ")[0].strip()].add(path)
        if not path.endswith("Proof.antt"):
            declared |= set(re.findall(r"^\s*(?:pub |abbrev |unfoldable )*([^\s:(){}]+) :", text, re.M))
        body = re.sub(r"^use [^\n{]*(\{[^}]*\})?", lambda m: m.group(0) if any("." + c + "." in m.group(0) for c in own) else "", text, flags=re.M)
        for word in TOKEN.findall(body):
            every.add(word)
            if wanted(word):
                found[word].add(path)
    kept = {w: snake(w) for w, paths in found.items() if w not in library and any(not p.endswith("Proof.antt") for p in paths)}
    kept.update({w: n for w, n in CLASH.items()})
    both = {w: library[w] for w in found if w in library and w in declared}
    return kept, both, every


def comment(line, new):
    return re.sub(r"`([^`]+)`", lambda m: "`" + TOKEN.sub(lambda t: new.get(t.group(0), t.group(0)), m.group(1)) + "`", line)


def turned(text, new, mark):
    lines = []
    for line in text.split("\n"):
        at = 0 if line.lstrip().startswith(mark) else None
        if at is None:
            m = re.search(r"(^|\s)" + re.escape(mark) + r"(\s|$)", line)
            at = m.start() if m else len(line)
        code, rest = line[:at], line[at:]
        pieces = re.split(r'("(?:[^"\\]|\\.)*")', code)
        code = "".join(p if i % 2 else TOKEN.sub(lambda t: new.get(t.group(0), t.group(0)), p) for i, p in enumerate(pieces))
        lines.append(code + comment(rest, new))
    return "\n".join(lines)


def main(argv):
    new, both, every = names()
    back = collections.defaultdict(set)
    for old, name in new.items():
        back[name].add(old)
    for name, olds in sorted(back.items()):
        if len(olds) > 1 or (name in every and name not in new):
            print("together:", name, sorted(olds), "and a word that stands" if name in every else "")
    for path in sorted(glob.glob("crates/*/src/**/*.rt", recursive=True)):
        with open(path, encoding="utf-8") as f:
            text = f.read()
        words = set(TOKEN.findall(text))
        for old in sorted(words & set(new)):
            if re.search(r"\b" + re.escape(new[old]) + r"\b\s*:[^:]", text):
                print("hidden by a parameter or local of", path, old, new[old])
    for path in sorted(glob.glob("crates/**/*.antt", recursive=True)):
        with open(path, encoding="utf-8") as f:
            text = uncommented(f.read())
        words = set(TOKEN.findall(text))
        for old in sorted(words & set(new)):
            if new[old] in words and new[old] not in new and not any(x in text for x in ("proofs." + new[old] + ".", "." + new[old] + " ")):
                print("together in", path, old, new[old])
    if argv == ["--look"]:
        print(len(new), "names")
        return 0
    for path in sorted(glob.glob("crates/**/*.antt", recursive=True) + glob.glob("crates/*/src/**/*.rt", recursive=True)):
        if "/out/" in path:
            continue
        with open(path, encoding="utf-8") as f:
            text = f.read()
        here = new | {w: snake(w) for w, paths in both.items() if path not in paths} | HERE.get(path, {})
        after = turned(text, here, "--" if path.endswith(".antt") else "//")
        if after != text:
            with open(path, "w", encoding="utf-8") as f:
                f.write(after)
    print(len(new), "names")
    return 0


if __name__ == "__main__":
    raise SystemExit(main(sys.argv[1:]))
