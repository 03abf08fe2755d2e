#!/usr/bin/env python3
"""Brings the repository's own names to the spelling of today's Rattle: definitions, lemmas, fields and constructors in snake case, types in
camel case; and what a contract says of a lent list to `x.now`, `x.old` and `x.new`.

usage: python3 tools/respell.py            at the top of the repository, once, after the kit's port.py

It goes by text. Names of other libraries, of functions in src/, of exports, strings and prose stay; in comments and pages a name is
respelt where it stands between backquotes. It prints names that fall together.
"""
import collections
import os
import re
import sys

SKIP = {"out", ".git", "target"}
# where two names of the repository would fall together
APART = {
    "letter-word": "letter_word_is",
    "labels-of": "labels_of_character",
    "readAt": "prefix_read_at",
    "labelsIn": "labels_of_set",
    "set-of": "set_of_is",
    "sheet-from": "sheet_from_is",
    "letters-for": "letters_for_is",
    "No-reading": "HasNoReading",
}
TOKEN = re.compile(r"[^\s(){}\[\].,;:\"`]+")
OWN = set(os.listdir("crates"))


def files(*ends):
    for folder, dirs, names in os.walk("crates"):
        dirs[:] = sorted(d for d in dirs if d not in SKIP)
        for n in sorted(names):
            if n.endswith(ends):
                yield os.path.join(folder, n)


def read(p):
    with open(p, encoding="utf-8") as f:
        return f.read()


def write(p, t):
    with open(p, "w", encoding="utf-8") as f:
        f.write(t)


def respelt(t):
    """The token in today's spelling."""
    if t in APART:
        return APART[t]
    m = re.match(r"[^A-Za-z]*", t)
    head, body = t[:m.end()], t[m.end():]
    if not body or body.startswith(("ghost",)):
        return t
    if body[0].isupper():
        if "-" not in body or body.upper() == body:
            return t
        return head + "".join(w[:1].upper() + w[1:] for w in body.split("-"))
    body = re.sub(r"([a-z0-9])([A-Z])(?=[a-z])", lambda k: k[1] + "_" + k[2].lower(), body)
    body = re.sub(r"(?<=\w)-(?=\w)|(?<=[\w*+'])-(?=\w)", "_", body)
    return head + body


def plain(t):
    return not any(c in t for c in "◌≡→≤∷≢") and re.search(r"[A-Za-z]", t) and not t.startswith(("λ", "--", "#"))


def imports(text):
    """(path, names) of each use line, names as (name, alias or None)."""
    for m in re.finditer(r"(?m)^\s*(?:pub )?(?:ghost )?use ([^\s{;]+?)(?:\.\{([^}]*)\}| as ([^\s;]+))?;?$", text):
        names = []
        for part in (m[2] or "").split(","):
            w = part.split()
            if w:
                names.append((w[0], w[2] if len(w) == 3 and w[1] == "as" else None))
        yield m, m[1], names


def own_path(path):
    w = path.split(".")
    return w[0] == "Rattle" and len(w) > 1 and w[1] in OWN


def strip_comments(text, mark):
    return re.sub(r"(?m)" + mark + r".*$", "", text)


def defined():
    """Every name that a file of specs/ or a lemma file defines, as its token."""
    names = set()
    for p in files(".antt"):
        if not ("/specs/" in p or (os.path.dirname(p).endswith("/proofs"))):
            continue
        t = strip_comments(read(p), r"(?<!\S)-- ")
        for m in re.finditer(r"(?m)^ *(?:where +)?(?:unfoldable +|abbrev +)*(?:pub +)?(?:record +|data +)?([^\s(){}\[\].,;:\"`]+) :(?=\s|$)", t):
            names.add(m[1])
        for m in re.finditer(r"(?m)^ *(?:pub +)?(?:record|data) +(?:pub +)?([^\s(){}\[\].,;:\"`]+)", t):
            names.add(m[1])
        for m in re.finditer(r"(?m)^ *let +([^\s(){}\[\].,;:\"`]+) ", t):
            names.add(m[1])
        # constructors on one line, arguments of modules, clauses and lambdas, names that an import gives
        for m in re.finditer(r"(?m)^ *(?:pub +)?([a-z]\w*-[\w-]+(?: +[a-z]\w*-[\w-]+)+) +:(?=\s|$)", t):
            names |= set(m[1].split())
        for m in re.finditer(r"[({]((?:[a-z][\w']*-[\w'-]+|[a-z]+[A-Z]\w*) ?)+:(?=\s)", t):
            names |= set(m[0][1:-1].split())
        for m in re.finditer(r"(?m)^ *[a-z][\w'-]* ((?:[^\s=]+ )+)= ?", t):
            names |= {w for w in m[1].split() if re.fullmatch(r"[a-z][\w']*-[\w'-]+", w)}
    for p in files(".antt", ".rt"):
        for _, path, given in imports(read(p)):
            names |= {a for _, a in given if a and own_path(path)}
    return {n for n in names if plain(n)}


def libraries():
    """Names that some file takes from a library that is not the repository's."""
    taken = set()
    for p in files(".antt", ".rt"):
        for _, path, names in imports(read(p)):
            if not own_path(path):
                taken |= {n for n, _ in names}
    return taken


def foreign(text):
    """Names that this file takes from a library under their own spelling."""
    return {n for _, path, names in imports(text) if not own_path(path) for n, a in names if a is None}


def turn_antt(text, names, kept):
    out, last = [], 0
    for line in text.split("\n"):
        m = re.match(r"^(\s*(?:pub )?(?:ghost )?use )([^\s{;]+?)(\.\{.*\}| as \S+)?(;?)$", line)
        if m and not own_path(m[2]):
            # of a library's names only the aliases are ours
            rest = re.sub(r"( as )([^\s,}]+)", lambda k: k[1] + (respelt(k[2]) if plain(k[2]) else k[2]), m[3] or "")
            out.append(m[1] + m[2] + rest + m[4])
            continue
        k = re.search(r"(?<!\S)--(?=\s|$)", line)
        code, comment = (line[:k.start()], line[k.start():]) if k else (line, "")
        out.append(tokens(code, names, kept) + ticks(comment, names))
    return "\n".join(out)


def tokens(code, names, kept):
    # strings stay
    parts = re.split(r'("(?:[^"\\]|\\.)*")', code)
    for i in range(0, len(parts), 2):
        parts[i] = TOKEN.sub(lambda m: respelt(m[0]) if m[0] in names and m[0] not in kept else m[0], parts[i])
    return "".join(parts)


def ticks(text, names):
    return re.sub(r"`([^`\n]+)`", lambda m: "`" + TOKEN.sub(lambda k: respelt(k[0]) if k[0] in names else k[0], m[1]) + "`", text)


def lent(text):
    """`old x` and `new x` of a contract as `x.now`, `x.old`, `x.new`."""
    starts = [m.start() for m in re.finditer(r"(?m)^(?: *)(?:#\[.*\]\n)?(?:pub )?(?:extern \"C\" )?fn \w+", text)] + [len(text)]
    pieces = [text[: starts[0]]]
    for a, b in zip(starts, starts[1:]):
        piece = text[a:b]
        kinds = {}
        for m in re.finditer(r"(\w+): (&(?:'\w+ )?(?:mut )?)?", piece.split("{", 1)[0]):
            kinds.setdefault(m[1], "mut" if m[2] and "mut" in m[2] else "ref" if m[2] else "value")

        def old(m):
            kind = kinds.get(m[1])
            if kind not in ("mut", "ref"):
                print(f"look: old of {m[1]}, which is {kind}", file=sys.stderr)
                return m[0]
            return m[1] + (".old" if kind == "mut" else ".now")

        def new(m):
            kind = kinds.get(m[1])
            if kind != "mut":
                print(f"look: new of {m[1]}, which is {kind}", file=sys.stderr)
                return m[0]
            return m[1] + ".new"

        done, end = [], 0
        for m in re.finditer(r"\b(?:requires|ensures)\*?(?: \w+)? \{", piece):
            close, deep = m.end(), 1
            while deep:
                deep += (piece[close] == "{") - (piece[close] == "}")
                close += 1
            clause = piece[m.end():close]
            clause = re.sub(r"\(old (\w+)\)", old, re.sub(r"\(new (\w+)\)", new, clause))
            clause = re.sub(r"(?<![\w.])old (\w+)\b", old, re.sub(r"(?<![\w.])new (\w+)\b", new, clause))
            done += [piece[end:m.end()], clause]
            end = close
        piece = "".join(done) + piece[end:]
        pieces.append(piece)
    text = "".join(pieces)
    body = "\n".join(l for l in text.split("\n") if not l.startswith("ghost use") and not l.lstrip().startswith("//"))
    words = [w for w in ("old", "new") if re.search(r"(?<![\w.])" + w + r" [\w(]", body)]
    line = re.search(r"(?m)^ghost use Rattle\.lists\.specs\.Memory\.\{([^}]*)\};\n", text)
    if line:
        keep = [n.strip() for n in line[1].split(",") if n.strip() not in ("old", "new") or n.strip() in words]
        text = text.replace(line[0], f"ghost use Rattle.lists.specs.Memory.{{{', '.join(keep)}}};\n" if keep else "", 1)
    return text


def turn_rt(text, names, kept):
    out = []
    for line in text.split("\n"):
        if re.match(r"^ghost use ", line):
            m = re.match(r"^(ghost use )([^\s{;]+?)(\.\{.*\}| as \S+)?(;?)$", line)
            if m and not own_path(m[2]):
                rest = re.sub(r"( as )([^\s,}]+)", lambda k: k[1] + (respelt(k[2]) if plain(k[2]) else k[2]), m[3] or "")
                out.append(m[1] + m[2] + rest + m[4])
                continue
            out.append(tokens(line, names, kept))
            continue
        k = re.search(r"//", line)
        code, comment = (line[:k.start()], line[k.start():]) if k and line[:k.start()].count('"') % 2 == 0 else (line, "")
        out.append(tokens(code, names, kept) + ticks(comment, names))
    return "\n".join(out)


def main():
    names = {n for n in defined() if respelt(n) != n}
    libs = libraries()
    both = names & libs
    if both:
        print("look: names of ours that some file takes from a library: " + ", ".join(sorted(both)))
    for p in files(".antt", ".rt"):
        text = read(p)
        kept = foreign(text)
        if p.endswith(".rt"):
            new = turn_rt(lent(text), names, kept)
        else:
            new = turn_antt(text, names, kept)
        # what falls together in this file
        before, after = set(TOKEN.findall(text)), collections.defaultdict(set)
        for t in before:
            if t in names and t not in kept:
                after[respelt(t)].add(t)
        for n, olds in after.items():
            if len(olds) > 1 or (n in before and "/proofs/" not in p):
                print(f"look: {p}: {', '.join(sorted(olds))} beside {n}")
        if new != text:
            write(p, new)
    for p in files(".edit"):
        text = read(p)
        head = re.match(r"(?s).*?\n(?=file:)", text)
        new = (head[0] if head else "") + "\n".join(tokens(l, names, set()) if l.startswith(("old:", "new:")) else l for l in text[len(head[0]) if head else 0:].split("\n"))
        if new != text:
            write(p, new)
    for p in ["README.md"] + sorted("docs/" + n for n in os.listdir("docs") if n.endswith(".md")) + sorted("docs/changes/" + n for n in os.listdir("docs/changes")):
        text = read(p)
        new = ticks(text, names)
        if new != text:
            write(p, new)
    print(f"{len(names)} names")


if __name__ == "__main__":
    main()
