#!/usr/bin/env python3
"""Puts a helper's right side where an answer reads it at an earlier place, as `table_in c.before.before`: from one place to another `.before` is no way.

usage: inline_before.py CRATE_FOLDER       over every Answers.antt of the crate, after turn_proofs.py
"""
import os, re, sys

SEG = r"[^\s(){}\[\],;.@]+"
CALL = r"(?<![\w.'-])(%s) c((?:\.before)+)(?![\w.'-])"


def turn(text):
    helpers = {}
    for block in re.split(r"\n\s*\n", text):
        lines = [l for l in block.split("\n") if not l.startswith("--")]
        if not lines:
            continue
        m = re.match(r"(?:(?:abbrev|pub)\s+)*(%s) : (?:\(c : [^)]*\)|[A-Z][^\s]*) →" % SEG, lines[0])
        if not m:
            continue
        body = "\n".join(lines)
        eq = re.search(r"^%s c =([\s\S]*)$" % re.escape(m[1]), body, re.M)
        if eq:
            helpers[m[1]] = " ".join(eq[1].split())
    for _ in range(4):
        names = "|".join(re.escape(h) for h in sorted(helpers, key=len, reverse=True))
        if not names:
            return text
        new = re.sub(CALL % names, lambda m: "(" + helpers[m[1]] + ")", text)
        helpers = {h: re.sub(CALL % names, lambda m: "(" + helpers[m[1]] + ")", b) for h, b in helpers.items()}
        new = re.sub(r"\(\(([^()]*)\)\)", r"(\1)", new)
        if new == text:
            return text
        text = new
    return text


def main(argv):
    for folder, _, files in os.walk(os.path.join(argv[0], "proofs")):
        if "Answers.antt" in files:
            p = os.path.join(folder, "Answers.antt")
            t = open(p, encoding="utf-8").read()
            new = turn(t)
            if new != t:
                open(p, "w", encoding="utf-8").write(new)
                print("inlined:", p)
    return 0


if __name__ == "__main__":
    sys.exit(main(sys.argv[1:]))
