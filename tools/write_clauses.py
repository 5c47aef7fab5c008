#!/usr/bin/env python3
"""Writes the clauses that a check asks for in lemma files: 'write the clause ..' for a case that cannot be.

usage: write_clauses.py CRATE_FOLDER LOG      LOG: what `rt check` said of the crate; the lines go before the first clause of the declaration
"""
import os, re, sys


def main(argv):
    where, log = argv
    text = open(log, encoding="utf-8").read()
    if "\nAFTER FIX\n" in text:
        text = text.split("\nAFTER FIX\n")[-1]
    lines = text.split("\n")
    done = 0
    for i, line in enumerate(lines):
        m = re.match(r"\./(\S+?):(\d+):\d+: error: `([^`]+)`: write the clauses?(?: `(.+)`)?\s*$", line)
        if not m:
            continue
        path, at, name = os.path.join(where, m[1]), int(m[2]), m[3]
        more = [m[4]] if m[4] else []
        if not more:
            j = i + 1
            while j < len(lines) and lines[j].startswith("  "):
                if re.match(r"  %s\s" % re.escape(name), lines[j]):
                    more.append(lines[j].strip())
                j += 1
        t = open(path, encoding="utf-8").read().split("\n")
        # from the place that the check names up to the signature, down to the first clause
        k = at - 1
        while k >= 0 and not re.match(r"\s*(?:(?:abbrev|pub|unfoldable)\s+)*%s\s*:" % re.escape(name), t[k]):
            k -= 1
        indent = re.match(r"\s*", t[k])[0]
        k += 1
        while k < len(t) and not re.match(r"%s%s(?![^\s(){}.;,@=])" % (re.escape(indent), re.escape(name)), t[k]):
            k += 1
        t[k:k] = [indent + l for l in more]
        for n, l in enumerate(t):
            if l.startswith("use Rattle.std.specs.Prelude.{") and not any(re.search(r"[{ ,]\[\][,}]", x) for x in t if x.lstrip().startswith("use ")):
                t[n] = l.replace(".{", ".{[], ", 1)
                break
        open(path, "w", encoding="utf-8").write("\n".join(t))
        print(f"{m[1]}: {name}: {len(more)} clauses")
        done += 1
    return 0 if done else 1


if __name__ == "__main__":
    sys.exit(main(sys.argv[1:]))
