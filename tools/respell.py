#!/usr/bin/env python3
"""Spells the repository's own definitions and lemmas as today's library does: words in snake case.

usage: tools/respell.py        at the top of the repository, once, after /opt/rattle/port/port.py

    bigEndian-length, addressAt, no-entry  ->  big_endian_length, address_at, no_entry

Names that begin with a capital (types, facts) stay, and so does all that Rust declares: functions, fields,
constants. Where a lemma and a definition would fall together, the lemma ends in `_lem`. Where a file
of specs/ or of lemmas has a new spelling already, it says so; of ours, `nextHop` and the field `next_hop` alone.
tools/respelled.tsv lists each name of the older commit with what it is now, port.py's among them. The crate `log` becomes
`opinion_log`, since the kit has a library named log.
"""
import collections
import os
import re
import subprocess

NAME = r"[^\s(){}.;,@\"«»]+"
DECLARED = re.compile(
    rf"^( *)((?:pattern |unfoldable |abbrev |pub |axiom )*)({NAME})(?: \{{[^{{}}\n]*\}})* :(?: |$)"
)
TOKEN = re.compile(NAME)
PROOF = ("Proof.antt", "Answers.antt", "Invariants.antt")
# Of names that fall together, those that are no lemma: what a host asks.
BY_HAND = {
    "last-clock": "the_last_clock",
    "path-at": "path_at",
    "rate-settings": "rate_settings",
    "word-matters": "whether_word_matters",
}
# A name that stands in comments as a word.
ENGLISH = {"one-to-one"}
CRATES = {"log": "opinion_log"}


def snake(name):
    """The name in snake case: words of camel case are parted, and a dash becomes an underscore."""
    parted = re.sub(r"(?<=[a-z0-9])[A-Z]", lambda m: "_" + m[0].lower(), name)
    return parted.replace("-", "_")


def files(ends):
    for top in sorted(os.listdir("crates")):
        for folder, inner, names in os.walk(os.path.join("crates", top)):
            inner[:] = sorted(i for i in inner if i != "out")
            for name in sorted(names):
                if name.endswith(ends):
                    yield os.path.join(folder, name)


def read(path):
    with open(path, encoding="utf-8") as f:
        return f.read()


def declared():
    """Each name that specs/ and the files of lemmas declare, with the files."""
    found = collections.defaultdict(set)
    for path in files(".antt"):
        if "/proofs/" in path and os.path.basename(path) in PROOF:
            continue
        for line in read(path).split("\n"):
            m = DECLARED.match(line)
            if m and not line.lstrip().startswith("--"):
                found[m[3]].add(path)
                if "◌" in m[3]:
                    for part in m[3].split("◌"):
                        if "-" in part:
                            found[part].add(path)
    return found


def renames(found):
    """What becomes of each name: old to new."""
    new = {}
    for name in found:
        first = name.lstrip("◌")[:1]
        if first.isupper() or snake(name) == name:
            continue
        new[name] = BY_HAND.get(name, snake(name))
    together = collections.defaultdict(set)
    for name in found:
        together[new.get(name, name)].add(name)
    for spelling, names in together.items():
        if len(names) == 1:
            continue
        # The definition, in camel case, takes the spelling; of two others the one that has it already.
        ranked = sorted(names, key=lambda n: (not re.search("[A-Z]", n), n != spelling, n))
        for name in ranked[1:]:
            new[name] = BY_HAND.get(name, spelling + "_lem")
    return new


def turned(path, text, new):
    """The text with the new names."""
    proof = os.path.basename(path) in PROOF and "/proofs/" in path
    mark = "//" if path.endswith(".rt") else "--"
    out = []
    for line in text.split("\n"):
        at = comment_at(line, mark)
        code, said = line[:at], line[at:]
        out.append(turn_code(code, new, proof, path.endswith(".rt")) + turn_comment(said, new))
    return "\n".join(out)


def locals_turned(path, text):
    """The text with the file's own variables, and the names that it gives by `as`, in snake case where that is free."""
    if path.endswith(".edit"):
        return text
    mark = "//" if path.endswith(".rt") else "--"
    code = "\n".join(line[: comment_at(line, mark)] for line in text.split("\n"))
    words = set(TOKEN.findall(code))
    own = {w for w in words if re.fullmatch(r"[a-z][a-z0-9]*(?:[A-Z][A-Za-z0-9]*)+'?", w)}
    if path.endswith(".antt"):
        own |= set(re.findall(r" as ([a-z0-9]+(?:-[a-z0-9]+)+)", code))
    new = {w: snake(w) for w in own if snake(w) not in words}
    lines = text.split("\n")
    ends = [comment_at(line, mark) for line in lines]
    return "\n".join(TOKEN.sub(lambda m: new.get(m[0], m[0]), li[:at]) + turn_comment(li[at:], new) for li, at in zip(lines, ends))


def comment_at(line, mark):
    """Where the line's comment begins: at the mark, behind nothing or a space."""
    m = re.search(rf"(?:^|(?<=\s)){re.escape(mark)}(?=\s|$|!|/)", line)
    return m.start() if m else len(line)


def turn_code(code, new, proof, rust):
    def one(m):
        word = m[0]
        if word not in new:
            return word
        # Rust's own names are in snake case, and stay.
        if rust and snake(word) == word:
            return word
        # A field of a context, that Rattle makes of the source, has dashes too.
        if proof and "-" in word and m.start() and code[m.start() - 1] == "." and not re.search("[A-Z]", word):
            return word
        return new[word]

    return TOKEN.sub(one, code)


def turn_comment(said, new):
    def quoted(m):
        return "`" + TOKEN.sub(lambda t: new.get(t[0], t[0]), m[1]) + "`"

    said = re.sub(r"`([^`\n]*)`", quoted, said)
    said = re.sub(
        r"(?<![\w`'-])[a-z]\w*(?:-\w+)+(?![\w'-])", lambda m: m[0] if m[0] in ENGLISH else new.get(m[0], m[0]), said
    )
    return re.sub(
        r"(?<![\w`'-])[a-z][a-z0-9]*(?:[A-Z][a-z0-9]*)+(?![\w'-])", lambda m: new.get(m[0], m[0]), said
    )


def clashes(new):
    """Where a file of specs/ or of lemmas that has an old name uses its new spelling too. In code and in the proofs
    of functions it is the function's own name, which no clause can mean."""
    bad = []
    for path in files(".antt"):
        if os.path.basename(path) in PROOF and "/proofs/" in path:
            continue
        words = set(TOKEN.findall(read(path)))
        for old in words & set(new):
            if new[old] in words and new[old] not in new:
                bad.append((path, old, new[old]))
    return bad


def move_crates():
    for old, name in CRATES.items():
        if not os.path.isdir(f"crates/{old}"):
            continue
        subprocess.run(["git", "mv", f"crates/{old}", f"crates/{name}"], check=True)
        for path in [*files((".antt", ".rt", ".edit")), "crates.txt"]:
            text = read(path)
            said = text
            if path == "crates.txt":
                said = re.sub(rf"(?<![\w.]){old}(?![\w.])", name, said)
            else:
                said = re.sub(rf"\bRattle\.{old}\b", f"Rattle.{name}", said)
                if not path.startswith(f"crates/{name}/"):
                    said = re.sub(rf"(?<![\w:.]){old}::", f"{name}::", said)
            write(path, text, said)


def write(path, before, after):
    if before != after:
        with open(path, "w", encoding="utf-8") as f:
            f.write(after)


def main():
    found = declared()
    new = renames(found)
    for path, old, name in clashes(new):
        print(f"look: {path}: {old} becomes {name}, which stands there already")
    for path in files((".antt", ".rt", ".edit")):
        text = read(path)
        write(path, text, locals_turned(path, turned(path, text, new)))
    move_crates()
    print(f"{len(new)} names")
    return 0


if __name__ == "__main__":
    raise SystemExit(main())
