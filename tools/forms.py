#!/usr/bin/env python3
"""Counts in crates/*/src the places that today's Rattle has a plainer form for, a line for each form; with --list each place.

usage: tools/forms.py [--list] [ROOT]
"""
import glob, os, re, sys

argv = [a for a in sys.argv[1:] if a != "--list"]
LIST = "--list" in sys.argv
os.chdir(argv[0] if argv else os.path.join(os.path.dirname(os.path.abspath(__file__)), ".."))
FILES = {p: open(p, encoding="utf-8").read() for p in sorted(glob.glob("crates/*/src/**/*.rt", recursive=True))}


def lines(pattern):
    rx = re.compile(pattern)
    return [f"{p}:{n}: {l.strip()}" for p, t in FILES.items() for n, l in enumerate(t.split("\n"), 1) if rx.search(l) and not l.strip().startswith("//")]


def blocks(pattern, test):
    out = []
    for p, t in FILES.items():
        for m in re.finditer(pattern, t, re.M):
            if test(m):
                out.append(f"{p}:{t.count(chr(10), 0, m.start()) + 1}: {m.group(1)}")
    return out


def variants(m):
    return [v for v in re.findall(r"^    (\w+)(?:\(([^)]*)\)| \{[^}]*\}|),$", m.group(2), re.M)]


def option_or_result(m):
    v = variants(m)
    bare = [n for n, a in v if not a and not re.search(r"\b%s \{" % n, m.group(2))]
    refusal = [n for n, a in v if a.startswith("Refusal") or n in ("Refused", "OutOfRange")]
    return len(v) >= 2 and ((len(v) == 2 and len(bare) == 1) or bool(refusal) or (len(v) == 3 and len(bare) == 2 and any(a for _, a in v)))


def parameters(m):
    depth, count, inner = 0, 0, m.group(2)
    for c in inner:
        depth += c in "([<{"
        depth -= c in ")]>}"
        count += c == "," and depth == 0
    return count + bool(inner.strip().rstrip(",")) - inner.strip().endswith(",") >= 7


def counting(m):
    body = m.group(0)
    return re.search(r"\b%s \+= 1;\n *\}$" % re.escape(m.group(2)), body) is not None


ENUM = r"^(?:pub )?enum (\w+) \{\n((?:.*\n)*?)\}"
STRUCT = r"^(?:pub )?struct (\w+)(?:<[^>]*>)? \{\n((?:.*\n)*?)\}"
FN = r"^ *(?:pub )?(?:extern \"C\" )?fn (\w+)(?:<[^(]*>)?\(((?:[^()]|\([^()]*\))*)\)"
COUNTED = blocks(r"^( *)while (\w+) (?:<|<=|!=) [^\n]*\{\n(?:.*\n)*?\1\}$", counting)
FORMS = [
    ("1a own enums of the shape of Option or Result", blocks(ENUM, option_or_result)),
    ("1b arms that only hand a refusal on", lines(r"(\w+::)?(Refused|Err|NotRead)\((\w+)\) => (return )?(\w+::)?(Refused|Err|NotRead)\(\3\)")),
    ("1c a flag or an outcome with a value beside it", blocks(STRUCT, lambda m: re.search(r"^    (pub )?(fits|readable|known|absent|whole|marked|wide|outcome): (bool|Outcome|Result<\(\), Refusal>),$", m.group(2), re.M) is not None)),
    ("1d numbers for refusals or kinds", lines(r"\b(Fault|Faulty)\(u8\)|^    (pub )?number: (u8|usize),|\bkind: u8\b|-> (usize|u8)$.*_fault|fn \w*fault\w*\(.*-> (usize|u8)")),
    ("2a functions wide, bit, lesser, narrow", lines(r"\bfn (wide|bit|lesser|narrow)\(")),
    ("2b a runner of lines written again (main, answer_lines)", [x for x in lines(r"\bfn (answer_lines|answer_all)\b") + lines(r"while at < text\.len\(\)")]),
    ("2c a function for bytes beside one for an array", lines(r"\bfn (wrong_list|wrong_listed|names_in|names_in_list|table_in|table_of|layers_in)\(")),
    ("3a while by an index that goes up by one", COUNTED),
    ("3c for over places, where one slice's length is the end", lines(r"^ *for \w+ in 0\.\.[\w.]+\.len\(\) \{")),
    ("3b other while", [w for w in lines(r"^ *while ") if w.split(": ")[0] not in {c.split(": ")[0] for c in COUNTED}]),
    ("4a conversions by `as`", lines(r"\bas (u8|u16|u32|u64|usize|i64)\b")),
    ("4b equality by hand", lines(r"\bfn same\w*\(")),
    ("5a functions with seven parameters or more", blocks(FN, parameters)),
    ("5b clauses that name the three columns", lines(r"table indices\.now decodings\.now matches\.now")),
    ("6a a count beside an array", blocks(STRUCT, lambda m: re.search(r"^    (pub )?(count|last): \w+,$", m.group(2), re.M) is not None and "[" in m.group(2))),
    ("6b a count and an array as parameters", lines(r"count: usize, \w+: (&mut )?\[")),
    ("7 a switch on which step to run", lines(r"match (question\.kind|kind|heading)\b|(kind|heading) == b?'?\w")),
]
for name, places in FORMS:
    print(f"{len(places):5} {name}")
    if LIST:
        for p in places:
            print("      ", p)
