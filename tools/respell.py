#!/usr/bin/env python3
"""Brings the repository's own definitions and lemmas to today's spelling, after port.py: words in snake case, a dash only between the names
of two definitions. Run once at the top, right after port.py. It prints each name that it left as it was, and why.

Renamed: what specs/ and proofs/ declare, also record fields and constructors. Left: types and facts, names of Rust's functions, what a
generated goal or step is called. It rewrites .antt files, ghost lines and clauses of src/, must-fail edits, and what stands in backticks
in README.md, CONTRIBUTING.md and docs/ (not in docs/landings, which tell what was).
"""
import collections
import glob
import re
import sys

W = r"[^\s(){}.;,@\"«»\[\]\\`:]+"
TOKEN = re.compile(r"--.*|//.*|\"(?:[^\"\\\n]|\\.)*\"|" + W)
PLAIN = re.compile(W)
DECLARED = re.compile(r"^(\s*)((?:abbrev |unfoldable |private |pub )*)(%s(?: %s)*) :(?= |$)" % (W, W))
NAMED = re.compile(r"^\s*(?:pub )?(?:record|data|mod|module) (%s)" % W)
# Where the plain respelling meets a name of the Rust's.
BY_HAND = {
    "allWords": "every_word",
    "firstByte": "opening_byte",
    "inLog": "within_log",
    "isDecoded": "was_decoded",
    "isSorted": "sorted_in",
    "newIn": "fresh_in",
    "nodeAt": "node_by",
    "textLen": "text_bytes",
    "valueIn": "value_by",
}
# Words of std that a lemma's name joins.
STD = set("length take drop append map get_or set sum replicate flatten reverse count concat all any min max repeat".split())


def read(path):
    with open(path, encoding="utf-8", newline="") as f:
        return f.read()


def snake(name):
    """fillOf -> fill_of; U32, N at the end and what is short after a capital stays with its word."""
    out = re.sub(r"(?<=[a-z0-9])(?=[A-Z])", "_", name)
    return out.lower()


def declared():
    """Each declared name with the kinds of place that declare it: 'definition', 'lemma' or 'goal' (a proof's part that a generated goal types)."""
    kinds = collections.defaultdict(set)
    for path in sorted(glob.glob("crates/*/specs/**/*.antt", recursive=True) + glob.glob("crates/*/proofs/**/*.antt", recursive=True)):
        for line in read(path).splitlines():
            if line.lstrip().startswith("--"):
                continue
            found = DECLARED.match(line)
            if found:
                goal = re.search(r" : (?:tie|lts|[a-z-]+)\.(?:Need|invariant|decreases)\b", line)
                definition = "/specs/" in path and re.search("abbrev|unfoldable", found[2])
                for name in found[3].split():
                    kinds[name].add("goal" if goal else "definition" if definition else "lemma")
            found = NAMED.match(line)
            if found:
                kinds[found[1]].add("definition")
            for it in re.findall(r"^    *(?:pub )?(%s) : " % W, line):
                kinds[it].add("lemma")
    return kinds


def new_name(name, kinds, words):
    if name in BY_HAND:
        return BY_HAND[name]
    if name[0].isupper() or "goal" in kinds[name] or "◌" in name:
        return name
    parts = [snake(it) if not it[:1].isupper() else it for it in name.split("-")]
    out = parts[0]
    for at in range(1, len(parts)):
        left = any("_".join(parts[k:at]) in words for k in range(at))
        right = any("_".join(parts[at:k]) in words for k in range(at + 1, len(parts) + 1))
        out += ("-" if left and right else "_") + parts[at]
    return out


def main():
    kinds = declared()
    # what a dash may join: definitions of the repository with a name of some length, and words of std
    words = STD | {snake(n).replace("-", "_") for n, k in kinds.items() if "definition" in k and len(n) > 3 and not n[0].isupper()}
    files = sorted(glob.glob("crates/*/specs/**/*.antt", recursive=True) + glob.glob("crates/*/proofs/**/*.antt", recursive=True) + glob.glob("crates/*/src/**/*.rt", recursive=True))
    # what a new name must not meet: a word of antt's text that is no field and no part of a path, a parameter or local of the Rust
    used = collections.Counter()
    for path in files:
        text = read(path)
        if path.endswith(".rt"):
            used.update(re.findall(r"(?<![\w.])(\w+): ", text) + re.findall(r"\blet (?:mut )?(\w+)", text))
            continue
        for it in TOKEN.finditer(text):
            if not it[0].startswith(("--", "//", '"')) and text[it.start() - 1 : it.start()] != ".":
                used[it[0]] += 1
    # a name that std or the logic has too stays, as a file may bring either
    foreign = set()
    for path in files:
        for line in re.findall(r"(?m)^ *(?:ghost )?(?:pub )?use (?!Rattle\.(?!std\.))[^{\n]*\{([^}]*)\}", read(path)):
            foreign.update(it.split(" as ")[0].strip() for it in line.split(","))
    to = {}
    taken = {}
    for name in sorted(kinds, key=lambda it: ("definition" not in kinds[it], it)):
        if not (("-" in name[1:-1]) or re.search(r"[a-z0-9][A-Z]", name)):
            continue
        new = new_name(name, kinds, words)
        if new == name:
            continue
        if name in foreign:
            print(f"left: {name}: std has the name")
            continue
        meets = [it for it in (new, new + "_lem") if it not in kinds and not used[it] and it not in taken]
        if not meets or (meets[0] != new and "definition" in kinds[name]):
            print(f"left: {name}: {new} is there already")
            continue
        new = meets[0]
        taken[new] = name
        to[name] = new

    def turned(text, pattern):
        def one(found):
            it = found[0]
            if it.startswith(("--", "//", '"')):
                # a comment's words with a dash are English as often as a lemma's name, but for those in backticks
                by_word = lambda w: to.get(w[0], w[0])
                words = re.sub(r"`[^`\n]+`", lambda q: PLAIN.sub(by_word, q[0]), it)
                return PLAIN.sub(lambda w: w[0] if "-" in w[0] else by_word(w), words) if it.startswith(("--", "//")) else it
            before = text[max(0, found.start() - 12) : found.start()]
            if re.search(r"(?<![\w-])(tie|lts|goal)\.\Z", before):
                return it
            return to.get(it, it)

        return pattern.sub(one, text)

    changed = 0
    for path in files + sorted(glob.glob("crates/*/must-fail/*.edit")):
        text = read(path)
        now = "".join(it if it.startswith("# ") and path.endswith(".edit") else turned(it, TOKEN) for it in text.splitlines(True))
        if now != text:
            changed += 1
            with open(path, "w", encoding="utf-8", newline="") as f:
                f.write(now)
    for path in ["README.md", "CONTRIBUTING.md"] + sorted(glob.glob("docs/*.md")):
        text = read(path)
        now = re.sub(r"`[^`\n]+`", lambda it: PLAIN.sub(lambda w: to.get(w[0], w[0]), it[0]), text)
        if now != text:
            changed += 1
            with open(path, "w", encoding="utf-8", newline="") as f:
                f.write(now)
    print(f"{len(to)} names, {changed} files", file=sys.stderr)


if __name__ == "__main__":
    main()
