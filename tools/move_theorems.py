#!/usr/bin/env python3
"""Moves the theorems of some crates from specs/ to proofs/, where an edit of a definition reads as refused: rt calls such an edit bad where
theorems in specs/ rest on it. A file of definitions stays, and so does one that a contract names and what such a file imports.

usage: python3 tools/move_theorems.py          at the top, once, after respell.py and rename_crates
"""
import os
import re
import sys

CRATES = sorted(c for c in os.listdir("crates") if os.path.isdir(f"crates/{c}/must-fail")
    and any("file: specs/" in open(f"crates/{c}/must-fail/{e}").read() for e in os.listdir(f"crates/{c}/must-fail")))
USE = re.compile(r"(?m)^(?:pub )?(?:ghost )?use Rattle\.(\w+)\.specs\.([A-Z]\w*)")


def read(p):
    with open(p, encoding="utf-8") as f:
        return f.read()


def files(*ends):
    for folder, dirs, names in os.walk("crates"):
        dirs[:] = sorted(d for d in dirs if d not in ("out",))
        for n in sorted(names):
            if n.endswith(ends):
                yield os.path.join(folder, n)


def has_theorem(t):
    t = re.sub(r"(?m)(?<!\S)--(?=\s|$).*$", "", t)
    for m in re.finditer(r"(?m)^( *)((?:abbrev |unfoldable )*)(?:pub )?((?:abbrev |unfoldable )*)(?:pub )?([^\s:(){}]+) :(?=\s|$)", t):
        if m[2] or m[3]:
            continue
        # a field or a constructor stands in a record or a data; those are indented below one
        before = t[: m.start()].rstrip("\n").split("\n")
        if m[1]:
            k = len(before) - 1
            while k >= 0 and (not before[k].strip() or len(before[k]) - len(before[k].lstrip()) >= len(m[1])):
                k -= 1
            if k >= 0 and re.match(r"\s*(pub )?(record|data) ", before[k]):
                continue
        return True
    return False


def main():
    cited = set()
    for p in files(".rt"):
        cited |= set(USE.findall(read(p)))
    moved = {}
    for c in CRATES:
        folder = f"crates/{c}/specs"
        mods = {n[:-5]: read(f"{folder}/{n}") for n in os.listdir(folder) if n.endswith(".antt") and n != "Lib.antt"}
        keep = {m for m, t in mods.items() if not has_theorem(t) or (c, m) in cited}
        todo = list(keep)
        while todo:
            for d, m in USE.findall(mods[todo.pop()]):
                if d == c and m in mods and m not in keep:
                    keep.add(m)
                    todo.append(m)
        go = sorted(set(mods) - keep)
        if not go:
            continue
        moved[c] = go
        os.makedirs(f"crates/{c}/proofs", exist_ok=True)
        lib = f"crates/{c}/proofs/Lib.antt"
        lines = read(lib).split("\n") if os.path.exists(lib) else []
        order = re.findall(r"(?m)^pub mod (\w+)", read(f"{folder}/Lib.antt"))
        for m in [m for m in order if m in go]:
            os.rename(f"{folder}/{m}.antt", f"crates/{c}/proofs/{m}.antt")
            lines.insert(len([l for l in lines if l]), f"pub mod {m}")
        with open(lib, "w") as f:
            f.write("\n".join(l for l in lines if l) + "\n")
        with open(f"{folder}/Lib.antt", "w") as f:
            f.write("\n".join(f"pub mod {m}" for m in order if m not in go) + "\n")
    pairs = [(c, m) for c, ms in moved.items() for m in ms]
    for p in list(files(".antt", ".rt", ".edit", ".txt")) + ["README.md"] + ["docs/" + n for n in os.listdir("docs") if n.endswith(".md")] + ["docs/changes/" + n for n in os.listdir("docs/changes")]:
        t = new = read(p)
        for c, ms in moved.items():
            new = re.sub(r"Rattle\.%s\.specs\.(%s)(?![\w])" % (c, "|".join(ms)), r"Rattle.%s.proofs.\1" % c, new)
            new = re.sub(r"crates/%s/specs/(%s)(?=\.antt)" % (c, "|".join(ms)), r"crates/%s/proofs/\1" % c, new)
            if p.startswith(f"crates/{c}/"):
                new = re.sub(r"(?m)^file: specs/(%s)\.antt" % "|".join(ms), r"file: proofs/\1.antt", new)
                new = re.sub(r"(?<![\w/])specs/(%s)(?=\.antt)" % "|".join(ms), r"proofs/\1", new)
        if new != t:
            with open(p, "w", encoding="utf-8") as f:
                f.write(new)
    for c, ms in moved.items():
        stay = re.findall(r"(?m)^pub mod (\w+)", read(f"crates/{c}/specs/Lib.antt"))
        print(f"{c}: moved {', '.join(ms)}; stay {', '.join(stay)}")


if __name__ == "__main__":
    main()
