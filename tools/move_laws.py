#!/usr/bin/env python3
"""Moves laws of a crate's specs/ to its proofs/, statements unchanged, and turns every import of them in the repository.

usage: move_laws.py CRATE FILE TARGET LAW..      as: move_laws.py framing Pieces Pieces cut_cuts cuts_unique

FILE is a module of specs/ (Pieces, or a path with dots), TARGET one of proofs/, which is made or added to. A law goes with the comment above it and
inside the `module _` lines that it stood in; what it cites of FILE is imported, and made `pub` where it was not. The moved names are printed.
It proves nothing: rt check decides, and `rt check --fix-imports` drops what is imported without need.
"""
import os, re, subprocess, sys

WORD = re.compile(r"[^\s(){}\[\].;,@\"«»`\\|]+")
DECLARED = re.compile(r"^(\s*)((?:(?:abbrev|pub|unfoldable|pattern)\s+)*)(?:record |data )?([^\s(){}.;,@\"«»`:=]+)((?:\s+[^:=]*?)?)\s*:\s")
USE = re.compile(r"^(\s*(?:ghost )?(?:pub )?use )([^\s{;]+)\.\{(.*)\}(;?)\s*$")


def indent(line):
    return len(line) - len(line.lstrip())


def blocks(lines):
    """(first line, last line + 1, names, module lines) of each declaration; comments above it belong to it."""
    out, modules, i = [], [], 0
    notes = None
    while i < len(lines):
        line = lines[i]
        if not line.strip():
            notes = None
            i += 1
            continue
        if line.lstrip().startswith("--"):
            notes = i if notes is None else notes
            i += 1
            continue
        while modules and indent(line) <= modules[-1][0]:
            modules.pop()
        if line.lstrip().startswith("module "):
            modules.append((indent(line), line))
            notes = None
            i += 1
            continue
        if line.lstrip().startswith(("use ", "pub use ")):
            notes = None
            i += 1
            continue
        m = DECLARED.match(line)
        names = [m[3]] + [w for w in m[4].split() if WORD.fullmatch(w)] if m else []
        at = indent(line)
        j = i + 1
        while j < len(lines):
            l = lines[j]
            if l.strip() and indent(l) <= at:
                clause = any(re.match(r"\s*%s(?![^\s(){}.;,@=:])" % re.escape(n), l) for n in names) and not DECLARED.match(l)
                if not (clause and indent(l) == at) and not l.lstrip().startswith(("unfolding ", ")", "]", "}")):
                    break
            j += 1
        end = j
        while end > i and (not lines[end - 1].strip() or lines[end - 1].lstrip().startswith("--")):
            end -= 1
        out.append((i if notes is None else notes, end, names, [t for _, t in modules]))
        notes = None
        i = end
    return out


def root():
    return subprocess.run(["git", "rev-parse", "--show-toplevel"], check=True, capture_output=True, text=True).stdout.strip()


def main(argv):
    crate, source, target, laws = argv[0], argv[1], argv[2], argv[3:]
    top = os.path.join(root(), "crates", crate)
    path = os.path.join(top, "specs", *source.split(".")) + ".antt"
    lines = open(path, encoding="utf-8").read().split("\n")
    found = blocks(lines)
    taken = [b for b in found if set(b[2]) & set(laws)]
    missing = set(laws) - {n for b in taken for n in b[2]}
    if missing:
        print("not there:", " ".join(sorted(missing)))
        return 1
    moved_names = {n for b in taken for n in b[2]}
    words = set()
    for b in taken:
        words |= set(WORD.findall("\n".join(lines[b[0]:b[1]] + b[3])))
    rest_names = {n for b in found if b not in taken for n in b[2]}
    constructors = set()
    for b in found:
        if b not in taken:
            text = lines[b[0]:b[1]]
            head = next((l for l in text if not l.lstrip().startswith("--")), "")
            if re.match(r"\s*(?:pub )?data ", head):
                for l in text[text.index(head) + 1:]:
                    m = DECLARED.match(l)
                    if m:
                        constructors.add(m[3])
    cited = sorted((rest_names | constructors) & words)
    # what is cited is public
    for b in found:
        if b in taken:
            continue
        for k in range(b[0], b[1]):
            m = DECLARED.match(lines[k])
            if m and set(b[2]) & words and m[3] in b[2] and "pub" not in m[2].split():
                mods = m[2].split()
                at = m[1]
                body = lines[k][len(m[1]) + len(m[2]):]
                if body.startswith(("record ", "data ")) or not mods:
                    lines[k] = at + "pub " + lines[k].lstrip()
                else:
                    lines[k] = at + " ".join(mods) + " pub " + body
                break
    uses = [l for l in lines if USE.match(l) or re.match(r"^\s*(?:pub )?use ", l)]
    out, now = [], []
    for b in taken:
        k = 0
        while k < len(now) and k < len(b[3]) and now[k] == b[3][k]:
            k += 1
        out += [""] if out else []
        out += b[3][k:]
        now = b[3]
        out += lines[b[0]:b[1]]
    to = os.path.join(top, "proofs", *target.split(".")) + ".antt"
    os.makedirs(os.path.dirname(to), exist_ok=True)
    module = f"Rattle.{crate}.specs.{source}"
    wanted = f"use {module}.{{{', '.join(cited)}}}" if cited else None
    if os.path.exists(to):
        text = open(to, encoding="utf-8").read().rstrip("\n").split("\n")
        last = max([i for i, l in enumerate(text) if re.match(r"^\s*(?:pub )?use ", l)], default=-1)
        have = {l.strip() for l in text}
        more = [l for l in uses + ([wanted] if wanted else []) if l.strip() not in have]
        known = set()
        for l in text:
            m = USE.match(l)
            if m:
                known |= {w.strip().split(" as ")[-1] for w in m[3].split(",")}
        slim = []
        for l in more:
            m = USE.match(l)
            if m:
                names = [w.strip() for w in m[3].split(",") if w.strip().split(" as ")[-1] not in known]
                if not names:
                    continue
                known |= {w.split(" as ")[-1] for w in names}
                l = f"{m[1]}{m[2]}.{{{', '.join(names)}}}{m[4]}"
            slim.append(l)
        text[last + 1:last + 1] = slim
        text += [""] + out
    else:
        first = []
        for l in lines:
            if not l.startswith("--"):
                break
            first.append(l)
        text = [f"-- Laws of {source} in specs/, which has the definitions and their meaning.", "-- Assumes nothing."] + uses + ([wanted] if wanted else []) + [""] + out
        lib = os.path.join(top, "proofs", "Lib.antt")
        have = open(lib, encoding="utf-8").read() if os.path.exists(lib) else ""
        if f"mod {target}" not in have.split("\n") and f"pub mod {target}" not in have.split("\n"):
            with open(lib, "w", encoding="utf-8") as f:
                f.write(have + ("" if not have or have.endswith("\n") else "\n") + f"pub mod {target}\n")
    with open(to, "w", encoding="utf-8") as f:
        f.write("\n".join(text) + "\n")
    for b in sorted(taken, reverse=True):
        del lines[b[0]:b[1]]
        while b[0] < len(lines) and b[0] > 0 and not lines[b[0]].strip() and not lines[b[0] - 1].strip():
            del lines[b[0]]
    # a module with nothing left in it goes
    again = True
    while again:
        again = False
        for i, l in enumerate(lines):
            if l.lstrip().startswith("module "):
                j = i + 1
                while j < len(lines) and (not lines[j].strip() or lines[j].lstrip().startswith("--") and indent(lines[j]) > indent(l)):
                    j += 1
                if j >= len(lines) or indent(lines[j]) <= indent(l):
                    del lines[i]
                    again = True
                    break
    with open(path, "w", encoding="utf-8") as f:
        f.write("\n".join(lines).rstrip("\n") + "\n")
    # imports
    place = f"Rattle.{crate}.proofs.{target}"
    turned = 0
    for folder, dirs, files in os.walk(os.path.join(root(), "crates")):
        dirs[:] = [d for d in dirs if d not in ("out", "must-fail")]
        for f in files:
            p = os.path.join(folder, f)
            if not f.endswith((".antt", ".rt")) or p == to:
                continue
            t = open(p, encoding="utf-8").read()
            if module not in t:
                continue
            new = []
            for l in t.split("\n"):
                m = USE.match(l)
                if m and m[2] == module:
                    names = [w.strip() for w in m[3].split(",")]
                    go = [w for w in names if w.split(" as ")[0] in moved_names]
                    stay = [w for w in names if w not in go]
                    if go:
                        if stay:
                            new.append(f"{m[1]}{m[2]}.{{{', '.join(stay)}}}{m[4]}")
                        new.append(f"{m[1]}{place}.{{{', '.join(go)}}}{m[4]}")
                        continue
                elif re.match(r"^\s*(?:ghost )?(?:pub )?use %s as " % re.escape(module), l):
                    print("look: an alias:", os.path.relpath(p, root()))
                new.append(l)
            if "\n".join(new) != t:
                turned += 1
                with open(p, "w", encoding="utf-8") as f2:
                    f2.write("\n".join(new))
    print(f"moved from {module} to {place}: {', '.join(sorted(moved_names))}; imports turned in {turned} files")
    return 0


if __name__ == "__main__":
    sys.exit(main(sys.argv[1:]))
