#!/usr/bin/env python3
"""Spells the names that our own .antt texts declare, or that an import gives, as Rattle does: words in snake case, `siteListing` and
`site-listing` as `site_listing`.

usage: respell.py [--check]

Run once at the top, right after the kit's port.py (docs/PORT.md). Types and modules keep their capitals, and a part of capitals alone
(a constant, the letter of a state) keeps them too. A name that a file takes from a library stays there. Where two names would fall
together in a file, both are listed, and nothing is written. A lemma that would have a definition's name gets `_lem`. Documents turn in
code spans. Names of Rust stay: a clause cannot name a function, so a definition may be spelled like one, but not like a parameter."""
import os
import re
import sys

WORD = r"[^\s(){}.;,@\"«»:`]+"
DECLARED = re.compile(rf"^ *(?:(?:abbrev|unfoldable|pub|data|record|ruleset) +)*({WORD})( [({{].*)? :(?: |$)")
IMPORT = re.compile(r"\buse ([^\s;{]+?)\.?\{([^}]*)\}")
FUNCTION = re.compile(r"/proofs/.*/(Proof|Answers|Invariants)\.antt$")
PARAMETER = re.compile(r"[(,]\s*(?:mut )?(\w+): ")

# lemmas that port.py had spelled like a definition already, in these crates
LEMMAS = {"creation": ["entry_place"], "frame": ["entry_in"], "history": ["place_found"], "listing_laws": ["entry_found"], "theory": ["is_free"]}


def files(*ends):
    for top in ("crates", "docs", "README.md", "CHANGELOG.md", "tests/README.md"):
        if os.path.isfile(top) and top.endswith(ends):
            yield top
        for folder, folders, names in os.walk(top):
            folders[:] = sorted(f for f in folders if f not in ("out", "target"))
            yield from (f"{folder}/{n}" for n in sorted(names) if n.endswith(ends))


def respelled(name):
    words = []
    for part in name.replace("getD", "get_or").split("-"):
        if not re.search(r"[a-z0-9][A-Z]", part) or part[:1].isupper():
            words.append(part)
            continue
        words += [w if w.isupper() and len(w) <= 2 else w[0].lower() + w[1:] for w in re.findall(r"[A-Z]+(?![a-z])|[A-Z]?[^A-Z]+", part)]
    return "_".join(words)


def declared():
    names = set()
    for path in files(".antt"):
        with open(path, encoding="utf-8") as lines:
            names |= {m[1] for m in map(DECLARED.match, lines) if m}
    for path in files(".antt", ".rt"):
        with open(path, encoding="utf-8") as text:
            names |= set(re.findall(r"\bas ([a-z][a-z0-9]*[A-Z][A-Za-z0-9]*)(?=[,}])", text.read()))
    new = {n: respelled(n) for n in sorted(names) if n[:1].isalpha()}
    taken = {s for n, s in new.items() if "-" not in n}
    new |= {n: f"{s}_lem" for n, s in new.items() if "-" in n and s in taken}
    return {n: s for n, s in new.items() if n != s}


def of_libraries(text):
    ours = {c for c in os.listdir("crates")}
    out = set()
    for m in IMPORT.finditer(text):
        steps = m[1].split(".")
        if not (steps[0] == "Rattle" and len(steps) > 1 and steps[1] in ours):
            out |= {w.strip().split(" as ")[0] for w in m[2].split(",")}
    return out


def turn_prose(text, names):
    plain = lambda m: names.get(m[0], m[0]) if "-" not in m[0] else m[0]
    text = re.sub(r"`[^`\n]+`", lambda s: re.sub(WORD, lambda m: names.get(m[0], m[0]), s[0]), text)
    return re.sub(r"[A-Za-z0-9]+", plain, text)


def pieces(text):
    at = 0
    for m in re.finditer(r"(?<![^\s(){}.;,])--(?= |$)[^\n]*|//[^\n]*", text):
        yield text[at:m.start()], False
        yield m[0], True
        at = m.end()
    yield text[at:], False


def turned(path, text, names):
    if path.endswith(".md"):
        return turn_prose_md(text, names), {}, set()
    theirs = of_libraries(text)
    mine = {n: s for n, s in names.items() if n not in theirs}
    in_function = bool(FUNCTION.search(path))
    if path.endswith(".antt"):
        mine |= {n: f"{n}_lem" for n in LEMMAS.get(path.split("/")[1], [])}
    seen, words, out = {}, set(), []
    for piece, comment in pieces(text):
        if comment:
            out.append(turn_prose(piece, mine))
            continue
        if path.endswith(".rt"):
            words |= set(PARAMETER.findall(piece))
        else:
            words |= set(re.findall(r"(?<![^\s({,;])" + WORD, piece))

        def word(m, piece=piece):
            w = m[0]
            dotted = piece[m.start() - 1:m.start()] == "."
            if w not in mine or dotted and (in_function and "-" in w or w not in names):
                return w
            seen[w] = mine[w]
            return mine[w]

        out.append(re.sub(WORD, word, piece))
    return "".join(out), seen, words


def turn_prose_md(text, names):
    return re.sub(r"`[^`\n]+`", lambda s: re.sub(WORD, lambda m: names.get(m[0], m[0]), s[0]), text)


def main():
    names = declared()
    new, bad = {}, []
    for path in files(".antt", ".rt", ".md"):
        text = open(path, encoding="utf-8").read()
        new[path], seen, words = turned(path, text, names)
        by = {}
        for w, s in seen.items():
            by.setdefault(s, set()).add(w)
        for s, olds in by.items():
            if len(olds) > 1 or s in words and s not in seen:
                bad.append(f"{path}: {' '.join(sorted(olds))} -> {s}{' (stands there)' if s in words else ''}")
    print("\n".join(bad) or "no names fall together", file=sys.stderr)
    print(f"{len(names)} names, {len(bad)} places where names fall together", file=sys.stderr)
    if "--check" in sys.argv or bad:
        return 1 if bad else 0
    for path, text in new.items():
        open(path, "w", encoding="utf-8").write(text)
    return 0


if __name__ == "__main__":
    raise SystemExit(main())
