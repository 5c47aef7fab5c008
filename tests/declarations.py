"""Do the declarations of the library agree? No compiler compares them: include/thoquenry.h for C, rust/thoquenry-sys for Rust,
python/src/thoquenry/_library.py for Python, and the source itself, the crate that exports functions. This test parses all four and holds them to one
another: the functions' names, and the name, number, order, width and constness of the parameters and the width of the result. A slice
parameter of the source is a pointer and, after it, a length. (ctypes does not say whether a pointer is const, so there it is not compared.)

It also holds to one another
  - the header's tables of an entry's numbers, of an MVC extension descriptor's and of an operation point's, each with its struct, the structs of a layer set and of a recording and the lengths of their
    buffers, and Rust's constants and the header's;
  - the refusals: the table of words (words/refusals.tsv), C's enum, Rust's constants and enum, Python's enum and the source's own enum
    (crates/vocabulary/src/refusal.rt) have the same numbers under the same names, with a place or without; every number has words of its own,
    which say what its place counts; the comments of C's and Rust's enums are those words; and the tables that Rust's crate and Python's package carry are
    copies of that table;
  - the version: the header's, the library's own, those of Rust's crates and of Python's package;
and, with a file that lists the names which the built library offers, those names and the header's. It tests itself: changes are made to the
texts, one after the other, and each must be noticed.

    python3 tests/declarations.py [FILE]
"""

import ast
import re
import sys
from pathlib import Path

ROOT = Path(__file__).resolve().parent.parent
HEADER = "include/thoquenry.h"
RUST = "rust/thoquenry-sys/src/lib.rs"
PYTHON = "python/src/thoquenry/_library.py"
SOURCE = "crates/thoquenry_c/src"
WORDS = "words/refusals.tsv"
COPIES_OF_WORDS = ("python/src/thoquenry/refusals.tsv", "rust/thoquenry/src/refusals.tsv")
RUST_REFUSALS = "rust/thoquenry/src/refusal.rs"
PYTHON_REFUSALS = "python/src/thoquenry/_refusals.py"
SOURCE_REFUSALS = "crates/vocabulary/src/refusal.rt"
VERSION_SOURCE = "crates/thoquenry/src/version.rt"
VERSION_SPEC = "crates/thoquenry/specs/Version.antt"
RUST_PACKAGES = ("rust/thoquenry-sys/Cargo.toml", "rust/thoquenry/Cargo.toml")
PYTHON_PACKAGE = "python/src/thoquenry/__init__.py"

# `match` is a word of the language in Rust and in Rattle: there the parameter is called `matching`.
RENAMED = {"match": "matching"}

# What a place may count, and the field of Rust's enum that then holds it.
PLACES = {"entry": "entry: usize", "row": "row: usize", "packet": "packet: usize", "layer index": "index: LayerIndex"}


def fail(message):
    sys.exit(f"declarations: {message}")


# ---- functions

def kind_of(text, kinds, where):
    if text not in kinds:
        fail(f"{where}: what is the type '{text}'?")
    return kinds[text]


def c_functions(text):
    """Name to (result, parameters), each parameter (name, kind), of a header's prototypes."""
    kinds = {"bool": "bool", "uint8_t": "u8", "uint16_t": "u16", "uint32_t": "u32", "uint64_t": "u64", "int64_t": "i64", "size_t": "usize"}
    text = re.sub(r"/\*.*?\*/", "", text, flags=re.S)
    text = re.sub(r"^#.*$", "", text, flags=re.M)
    functions = {}
    for result, name, parameters in re.findall(r"(\w+)\s+(\w+)\s*\(([^()]*)\)\s*;", text):
        parsed = []
        for parameter in parameters.split(",") if parameters != "void" else []:
            parts = re.fullmatch(r"\s*(const )?(\w+) (\*?)(\w+)\s*", parameter)
            if parts is None:
                fail(f"{HEADER}: {name}: '{parameter.strip()}'?")
            const, kind, star, called = parts.groups()
            kind = kind_of(kind, kinds, HEADER)
            parsed.append((RENAMED.get(called, called), f"*{'const' if const else 'mut'} {kind}" if star else kind))
        functions[name] = (kind_of(result, kinds, HEADER), parsed)
    return functions


def rust_functions(text):
    """The same of the functions in Rust's `extern "C"` block."""
    plain = ["bool", "u8", "u16", "u32", "u64", "i64", "usize"]
    kinds = {kind: kind for kind in plain + [f"*{way} {kind}" for way in ("const", "mut") for kind in plain]}
    text = re.sub(r"//.*", "", text)
    functions = {}
    for name, parameters, result in re.findall(r"pub fn (\w+)\s*\(([^()]*)\)\s*->\s*(\w+)\s*;", text):
        parsed = []
        for parameter in filter(None, (part.strip() for part in parameters.split(","))):
            called, kind = parameter.split(": ")
            parsed.append((called, kind_of(kind, kinds, RUST)))
        functions[name] = (kind_of(result, kinds, RUST), parsed)
    return functions


def python_functions(text):
    """The same of the table DECLARATIONS; a pointer is '* u8'."""
    kinds = {"c_bool": "bool", "c_uint8": "u8", "c_uint16": "u16", "c_uint32": "u32", "c_uint64": "u64", "c_int64": "i64", "c_size_t": "usize", "c_char_p": "* u8"}

    def kind(node):
        if isinstance(node, ast.Call) and node.func.id == "POINTER":
            return "* " + kind(node.args[0])
        return kind_of(node.id, kinds, PYTHON)

    for statement in ast.parse(text).body:
        if isinstance(statement, ast.Assign) and statement.targets[0].id == "DECLARATIONS":
            table = statement.value
            break
    else:
        fail(f"{PYTHON} has no table DECLARATIONS")
    functions = {}
    for name, row in zip(table.keys, table.values):
        result, parameters = row.elts
        parsed = [(pair.elts[0].value, kind(pair.elts[1])) for pair in parameters.elts]
        functions[name.value] = (kind(result), [(RENAMED.get(called, called), width) for called, width in parsed])
    return functions


def rattle_functions(text):
    """The same of the functions that the source exports; a slice is a pointer and a length."""
    plain = {kind: kind for kind in ("bool", "u8", "u16", "u32", "u64", "i64", "usize")}
    text = re.sub(r"//.*", "", text)
    exported = re.findall(r'#\[unsafe\(no_mangle\)\]\s*pub extern "C" fn (\w+)\s*\(([^()]*)\)\s*->\s*(\w+)', text)
    if len(exported) != len(re.findall(r'extern "C"', text)):
        fail(f"{SOURCE}: an exported function that is not marked #[unsafe(no_mangle)], or of another shape")
    functions = {}
    for name, parameters, result in exported:
        parsed = []
        for parameter in filter(None, (part.strip() for part in parameters.split(","))):
            called, kind = re.fullmatch(r"(?:mut )?(\w+)\s*:\s*(.*)", parameter).groups()
            piece = re.fullmatch(r"&(mut )?\[(\w+)\]", kind)
            if piece is None:
                parsed.append((called, kind_of(kind, plain, SOURCE)))
            else:
                way = "mut" if piece.group(1) else "const"
                parsed += [(called, f"*{way} {kind_of(piece.group(2), plain, SOURCE)}"), (f"{called}_length", "usize")]
        functions[name] = (kind_of(result, plain, SOURCE), parsed)
    return functions


def functions_differ(one, other, place):
    """What differs between the header's functions and another's, in words."""
    found = [f"{place} lacks {name}" for name in one if name not in other]
    found += [f"{HEADER} lacks {name}" for name in other if name not in one]

    def plainly(parameters):
        if place == PYTHON:
            return [(called, re.sub(r"^\*\w+ ", "* ", kind)) for called, kind in parameters]
        return parameters

    for name in one:
        if name in other and (one[name][0], plainly(one[name][1])) != other[name]:
            found.append(f"{name} differs\n    {HEADER}: {one[name]}\n    {place}: {other[name]}")
    return found


def layout_differs(text, struct_name, constant, bits=16):
    """What differs between a struct of the header and the table of its numbers, of so many bits each, in the comment before it."""
    found = re.search(rf"/\*((?:(?!\*/).)*)\*/\s*(?:#define[^\n]*\s*)*typedef struct {struct_name} \{{(.*?)\}}", text, flags=re.S)
    if found is None:
        fail(f"{HEADER}: there is no struct {struct_name}, or no comment before it")
    comment, body = found.groups()
    struct, at = [], 0
    for name, length in re.findall(rf"uint{bits}_t (\w+)(?:\[(\d+)\])?;", body):
        struct.append((at, at + int(length or 1) - 1, name))
        at += int(length or 1)
    rows = re.findall(r"^ \*     (\d+)(?:\.\.(\d+))?\s+(\d+)\.\.(\d+)\s+(\w+)", comment, flags=re.M)
    table = [(int(first), int(last or first), int(low), int(high), name) for first, last, low, high, name in rows]
    found = []
    if at != int(re.search(rf"#define {constant} (\d+)", text).group(1)):
        found.append(f"the struct {struct_name} has {at} numbers")
    if [row[:2] for row in table] != [row[:2] for row in struct]:
        found.append(f"the table of numbers and the struct {struct_name} differ in their numbers")
    for (first, last, low, high, name), (_, _, called) in zip(table, struct):
        low_byte, high_byte = bits // 8 * first, bits // 8 * (last + 1) - 1
        if (low, high) != (low_byte, high_byte):
            found.append(f"{struct_name}: number {first} stands in bytes {low_byte}..{high_byte}")
        # numEsInOp is num_es_in_op in C
        if first < 16 and name.lower().replace("_", "") != called.replace("_", ""):
            found.append(f"{struct_name}: number {first} is {name} in the table and {called} in the struct")
    return found


def set_layout_differs(text):
    """What differs between the header's struct of a layer set and the lengths of its two buffers."""
    number = {name: int(value) for name, value in re.findall(r"#define (THQ_\w+) (\d+)", text)}
    entries, stored = re.search(r"typedef struct thq_set \{\s*thq_entry layers\[(\d+)\];\s*uint64_t stored\[(\w+)\];\s*\}", text).groups()
    found = []
    if int(entries) * number["THQ_ENTRY_NUMBERS"] != number["THQ_SET_LAYERS"]:
        found.append(f"the struct of a layer set has {entries} entries, and THQ_SET_LAYERS is {number['THQ_SET_LAYERS']}")
    if stored != "THQ_SET_STORED" or number["THQ_SET_STORED"] != 3 * int(entries):
        found.append(f"what is stored of a layer set is three columns of {entries} numbers each")
    return found


def recording_layout_differs(text):
    """What differs between the header's struct of a recording, the lengths of its two buffers, and the list of its numbers."""
    number = {name: int(value) for name, value in re.findall(r"#define (THQ_\w+) (\d+)", text)}
    packet, layers = number["THQ_PACKET_BYTES"], int(re.search(r"counts\[i\]     for i below (\d+)", text).group(1))
    listed = [layers - 1, *(int(place) for place in re.findall(r"^ \*     counts\[(\d+)\]", text, flags=re.M))]
    found = []
    if not re.search(r"typedef struct thq_recording \{\s*uint8_t state\[THQ_PACKETS_STATE\];\s*uint64_t counts\[THQ_PACKETS_COUNTS\];\s*\}", text):
        found.append("the struct of a recording has not the two buffers")
    if number["THQ_PACKETS_STATE"] != 8192 + packet + layers * packet:
        found.append(f"a recording has a byte for each of 8,192 PIDs, a packet, and one for each of {layers} layers, and THQ_PACKETS_STATE is {number['THQ_PACKETS_STATE']}")
    if listed != list(range(layers - 1, number["THQ_PACKETS_COUNTS"])):
        found.append(f"the numbers of a recording are listed as {listed}, and THQ_PACKETS_COUNTS is {number['THQ_PACKETS_COUNTS']}")
    return found


# ---- constants and refusals

def enumerators(header):
    """The names, numbers and comments of the header's enum."""
    body = re.search(r"enum thq_refusal \{(.*?)\n\}", header, flags=re.S).group(1)
    return re.findall(r"/\* (.*?) \*/\s*(THQ_\w+) = (\d+)", body)


def constants_differ(header, rust):
    """What differs between the header's constants and Rust's."""
    of_header = {**dict(re.findall(r"#define (THQ_\w+) (\d+)", header)), **{name: number for _, name, number in enumerators(header)}}
    of_rust = dict(re.findall(r"pub const (THQ_\w+): \w+ = (\d+);", rust))
    return [] if of_header == of_rust else [f"constants differ\n    {HEADER}: {of_header}\n    {RUST}: {of_rust}"]


def in_capitals(name):
    """LoopTooLong as LOOP_TOO_LONG."""
    return re.sub(r"(?<=[a-z])(?=[A-Z])", "_", name).upper()


def words_of(text):
    """The table of words: (number, name, what the place counts or None, words)."""
    rows = [line.split("\t") for line in text.splitlines() if not line.startswith("#")]
    if any(len(row) != 4 for row in rows):
        fail(f"{WORDS}: a line that has not four parts")
    return [(int(number), name, None if place == "-" else place, words) for number, name, place, words in rows]


def table_is_unsound(table):
    """What is wrong with the table of words by itself."""
    found = []
    numbers, names, _, words = zip(*table)
    if list(numbers) != sorted(set(numbers)):
        found.append(f"{WORDS}: numbers that do not rise")
    for kind, values in (("names", names), ("words", words)):
        if len(set(values)) != len(values) or not all(values):
            found.append(f"{WORDS}: {kind} that are empty or stand twice")
    for number, _, place, text in table:
        if place is not None and place not in PLACES:
            found.append(f"{WORDS}: {number}: what is the place '{place}'?")
        if text.count("{}") != (place is not None) or (place is not None and f"{place} {{}}" not in text):
            found.append(f"{WORDS}: {number}: the words do not say what its place counts: {text}")
    return found


def refusals_differ(texts):
    """What differs between the table of words and the four enums."""
    table = words_of(texts[WORDS])
    expected = [(number, name) for number, name, _, _ in table]
    placed = {name: place for _, name, place, _ in table}
    found = table_is_unsound(table)
    found += [f"{copy} is no copy of {WORDS}" for copy in COPIES_OF_WORDS if texts[copy] != texts[WORDS]]

    def hold(where, given, wanted):
        if given != wanted:
            found.append(f"refusals differ\n    {WORDS}: {[one for one in wanted if one not in given]}\n    {where}: {[one for one in given if one not in wanted]}")

    of_c = [(int(number), name, words) for words, name, number in enumerators(texts[HEADER]) if name != "THQ_NOT_A_CALL"]
    hold(HEADER, of_c, [(number, f"THQ_REFUSED_{name}", words) for number, name, _, words in table])

    listed = re.search(r"^refusals! \{\n(.*?)^\}", texts[RUST_REFUSALS], flags=re.S | re.M).group(1)
    of_rust = re.findall(r"/// (\d+): (.*)\.\n    (\d+) (\w+)(?: \{\n        /// .*\n        (.*)\n    \})?,", listed)
    hold(RUST_REFUSALS, [(int(told), int(number), in_capitals(name), words, field) for told, words, number, name, field in of_rust],
         [(number, number, name, words, PLACES.get(place, "")) for number, name, place, words in table])

    numbers = re.search(r"class Number\(IntEnum\):(.*?)\n\n\n", texts[PYTHON_REFUSALS], flags=re.S).group(1)
    hold(PYTHON_REFUSALS, [(int(number), name) for name, number in re.findall(r"^    (\w+) = (\d+)$", numbers, flags=re.M)], expected)

    variants = re.search(r"pub enum Refusal \{(.*?)\n\}", texts[SOURCE_REFUSALS], flags=re.S).group(1)
    held = {in_capitals(name): kind for name, kind in re.findall(r"^    (\w+)(?:\((\w+)\))?,$", variants, flags=re.M)}
    hold(f"{SOURCE_REFUSALS} (the enum)", sorted(held.items()),
         sorted((name, "" if place is None else PLACES[place].split(": ")[1]) for name, place in placed.items()))
    arms = re.findall(r"Refusal::(\w+)(?:\(_\))? => (\d+),", re.search(r"pub fn number\(.*?\n\}", texts[SOURCE_REFUSALS], flags=re.S).group(0))
    hold(f"{SOURCE_REFUSALS} (the numbers)", sorted((int(number), in_capitals(name)) for name, number in arms), expected)
    return found


# ---- the version

def versions_differ(texts):
    """What differs between the header's version and the others."""
    version = re.search(r'#define THQ_VERSION "(\d+\.\d+\.\d+)"', texts[HEADER]).group(1)
    first, second, third = map(int, version.split("."))
    number = 10000 * first + 100 * second + third
    fitting = (f"{first}.{second}", number - third) if first == 0 else (f"{first}", 10000 * first)
    patterns = [
        (HEADER, r"#define THQ_VERSION_NUMBER (\d+)", f"{number}"),
        (HEADER, r"\(libthoquenry\.so\.([\d.]+)\)", fitting[0]),
        (VERSION_SOURCE, r"fn thq_version\(\)[^{]*\{[^}]*\}\s*\{\s*(\d+)\s*\}", f"{number}"),
        (VERSION_SPEC, r"\nversion = numbered (.*)", f"{first} {second} {third}"),
        (PYTHON, r'_SONAME = "libthoquenry\.so\.([\d.]+)"', fitting[0]),
        (PYTHON, r"_FITTING = range\((\d+), ", f"{fitting[1]}"),
        (PYTHON_PACKAGE, r'\n__version__ = "(.*)"', version),
        *((package, r'\nversion = "(.*)"', version) for package in RUST_PACKAGES),
        (RUST_PACKAGES[1], r'thoquenry-sys = \{.*version = "(.*)" \}', version),
    ]
    found = []
    for path, pattern, expected in patterns:
        given = re.search(pattern, texts[path])
        if given is None or given.group(1) != expected:
            found.append(f"{path}: the version is {version}, so this is to be {expected} and not {given and given.group(1)}")
    return found


# ---- all of it

def all_differences(texts):
    """What differs, given each file's text."""
    header = c_functions(texts[HEADER])
    return (functions_differ(header, rust_functions(texts[RUST]), RUST)
            + functions_differ(header, python_functions(texts[PYTHON]), PYTHON)
            + functions_differ(header, rattle_functions(texts[SOURCE]), SOURCE)
            + layout_differs(texts[HEADER], "thq_entry", "THQ_ENTRY_NUMBERS")
            + layout_differs(texts[HEADER], "thq_mvc_extension", "THQ_MVC_EXTENSION_NUMBERS")
            + layout_differs(texts[HEADER], "thq_point", "THQ_POINT_NUMBERS", 32)
            + set_layout_differs(texts[HEADER])
            + recording_layout_differs(texts[HEADER])
            + constants_differ(texts[HEADER], texts[RUST])
            + refusals_differ(texts)
            + versions_differ(texts))


# Changes to one text, after which this test must find a difference: a width, an order, a constness, a count, a name, a number, a word.
CHANGES = [
    (HEADER, "const uint8_t *bytes", "const uint16_t *bytes"),
    (HEADER, "size_t out_length", "uint64_t out_length"),
    (HEADER, "thq_import(", "thq_imports("),
    (HEADER, "uint16_t embedded[63]", "uint16_t embedded[62]"),
    (HEADER, "uint16_t view_order_index_min;", "uint16_t view_order_index_least;"),
    (HEADER, "    uint16_t no_sei_nal_unit_present;\n", ""),
    (HEADER, "#define THQ_MVC_EXTENSION_NUMBERS 8", "#define THQ_MVC_EXTENSION_NUMBERS 9"),
    (HEADER, "    uint32_t frame_rate_indicator;\n", ""),
    (HEADER, "uint32_t num_es_in_op;", "uint32_t number_of_streams;"),
    (HEADER, " *     9       36..39 ", " *     9       36..40 "),
    (HEADER, "#define THQ_POINT_NUMBERS 12", "#define THQ_POINT_NUMBERS 13"),
    (HEADER, "const uint32_t *points", "const uint16_t *points"),
    (HEADER, "#define THQ_PACKET_BYTES 188", "#define THQ_PACKET_BYTES 204"),
    (HEADER, "uint64_t *packet_numbers", "uint32_t *packet_numbers"),
    (HEADER, "#define THQ_PACKETS_STATE 20412", "#define THQ_PACKETS_STATE 20600"),
    (HEADER, " *     counts[70] ", " *     counts[72] "),
    (HEADER, "uint64_t counts[THQ_PACKETS_COUNTS]", "uint64_t counts[64]"),
    (HEADER, "const uint8_t *state", "uint8_t *state"),
    (HEADER, "thq_entry layers[64]", "thq_entry layers[63]"),
    (HEADER, "uint64_t stored[THQ_SET_STORED]", "uint64_t stored[64]"),
    (HEADER, "#define THQ_SET_LAYERS 5120", "#define THQ_SET_LAYERS 5121"),
    (HEADER, "const uint16_t *entry,", "uint16_t *entry,"),
    (HEADER, "#define THQ_HIERARCHY 1", "#define THQ_HIERARCHY 3"),
    (HEADER, "#define THQ_IMPLIED 3", "#define THQ_IMPLIED 2"),
    (HEADER, "THQ_REFUSED_UNPAIRED = 15", "THQ_REFUSED_UNPAIRED = 16"),
    (HEADER, "THQ_REFUSED_NO_ROOM", "THQ_REFUSED_ROOM"),
    (HEADER, "has no assembly", "has no partner"),
    (HEADER, '"0.5.0"', '"0.6.0"'),
    (HEADER, "THQ_VERSION_NUMBER 500", "THQ_VERSION_NUMBER 50000"),
    (RUST, "lags: *mut i64", "lags: *mut u64"),
    (RUST, "embedded: *const u64", "embedded: *mut u64"),
    (RUST, "extensions: *const u16", "extensions: *mut u16"),
    (RUST, "THQ_MVC_EXTENSION_NUMBERS: usize = 8", "THQ_MVC_EXTENSION_NUMBERS: usize = 16"),
    (RUST, "packets: *const u8", "packets: *mut u8"),
    (RUST, "THQ_PACKETS_COUNTS: usize = 72", "THQ_PACKETS_COUNTS: usize = 64"),
    (RUST, "summary: *mut u32", "summary: *mut u64"),
    (RUST, "THQ_POINT_NUMBERS: usize = 12", "THQ_POINT_NUMBERS: usize = 10"),
    (RUST, "pts: u64,\n        decoding: u64,", "decoding: u64,\n        pts: u64,"),
    (RUST, "THQ_REFUSED_TOO_WIDE: u64 = 25", "THQ_REFUSED_TOO_WIDE: u64 = 26"),
    (RUST, "pub const THQ_REFUSED_NO_PTS: u64 = 21;\n", ""),
    (PYTHON, '("indices", POINTER(c_uint8))', '("indices", POINTER(c_uint64))'),
    (PYTHON, '("present", c_uint64),', ""),
    (PYTHON, '("extensions", POINTER(c_uint16))', '("extensions", POINTER(c_uint8))'),
    (PYTHON, '("points", POINTER(c_uint32))', '("points", POINTER(c_uint16))'),
    (PYTHON, '("trefs", POINTER(c_uint8))', '("trefs", POINTER(c_bool))'),
    (PYTHON, '("layers", POINTER(c_uint16))', '("layers", POINTER(c_uint64))'),
    (PYTHON, '("bytes", c_char_p)', '("bytes", POINTER(c_uint16))'),
    (PYTHON, "libthoquenry.so.0.5", "libthoquenry.so.1"),
    (PYTHON, "range(500, 600)", "range(400, 500)"),
    (SOURCE, "&mut [i64]", "&mut [u64]"),
    (SOURCE, "-> u64", "-> u8"),
    (SOURCE, "counts: &[u64]) -> u64", "counts: &mut [u64]) -> u64"),
    (VERSION_SOURCE, "    500\n", "    501\n"),
    (VERSION_SPEC, "numbered 0 5 0", "numbered 1 0 0"),
    (WORDS, "25\tTOO_WIDE\t-\ta value to be written is too wide for its field\n", ""),
    (WORDS, "25\tTOO_WIDE\t-\ta value to be written is too wide for its field", "25\tTOO_WIDE\t-\tPTS lies before DTS"),
    (WORDS, "25\tTOO_WIDE\t-\ta value to be written is too wide for its field", "25\tTOO_WIDE\t-\t"),
    (WORDS, "14\tTIME_ORDER_BROKEN\trow\trow {}", "14\tTIME_ORDER_BROKEN\trow\trow"),
    (WORDS, "14\tTIME_ORDER_BROKEN\trow\trow {}", "14\tTIME_ORDER_BROKEN\tentry\tentry {}"),
    (WORDS, "14\tTIME_ORDER_BROKEN", "18\tTIME_ORDER_BROKEN"),
    *((copy, "row {}, the head of a unit, has no assembly", "row {} has no assembly") for copy in COPIES_OF_WORDS),
    (RUST_REFUSALS, "15 Unpaired", "16 Unpaired"),
    (RUST_REFUSALS, "23 WrongMarker", "23 WrongMarkers"),
    (RUST_REFUSALS, "24: PTS lies before DTS", "24: DTS lies before PTS"),
    (RUST_REFUSALS, "        index: LayerIndex\n", "        index: usize\n"),
    (PYTHON_REFUSALS, "    NO_PTS = 21\n", ""),
    (PYTHON_REFUSALS, "WRONG_FLAGS = 7\n    REPEATED_LAYER_INDEX = 8", "WRONG_FLAGS = 8\n    REPEATED_LAYER_INDEX = 7"),
    (SOURCE_REFUSALS, "    Unpaired(usize),\n", "    Unpaired,\n"),
    (SOURCE_REFUSALS, "Refusal::UsedTwice(_) => 16", "Refusal::UsedTwice(_) => 18"),
    (SOURCE_REFUSALS, "    NoRoom,\n", ""),
    (RUST_PACKAGES[0], 'version = "0.5.0"', 'version = "0.5.1"'),
    (RUST_PACKAGES[1], 'version = "0.5.0"', 'version = "0.5.1"'),
    (PYTHON_PACKAGE, '__version__ = "0.5.0"', '__version__ = "0.5.1"'),
]


def main():
    single = (HEADER, RUST, PYTHON, WORDS, *COPIES_OF_WORDS, RUST_REFUSALS, PYTHON_REFUSALS, SOURCE_REFUSALS, VERSION_SOURCE, VERSION_SPEC, *RUST_PACKAGES, PYTHON_PACKAGE)
    texts = {path: (ROOT / path).read_text() for path in single}
    texts[SOURCE] = "\n".join(path.read_text() for path in sorted(ROOT.glob(f"{SOURCE}/*.rt")))
    header = c_functions(texts[HEADER])
    found = all_differences(texts)
    others = [path for path in sorted(ROOT.glob("crates/*/src/**/*.rt")) if 'extern "C"' in path.read_text() and not path.is_relative_to(ROOT / SOURCE)]
    found += [f"{path.relative_to(ROOT)} exports functions too" for path in others]
    if len(sys.argv) > 1:
        offered = set(Path(sys.argv[1]).read_text().split())
        if offered != set(header):
            found.append(f"the library offers {sorted(offered)}\n    {HEADER} declares {sorted(header)}")
    if found:
        fail("\n".join(found))
    for path, old, new in CHANGES:
        if old not in texts[path]:
            fail(f"{path} has no '{old}' to change")
        if not all_differences({**texts, path: texts[path].replace(old, new)}):
            fail(f"{path}: '{new}' for '{old}' was not noticed")
    refusals = len(words_of(texts[WORDS]))
    print(f"declarations: {len(header)} functions, {refusals} refusals and the version agree in C, Rust, Python and the source; {len(CHANGES)} changes noticed")


if __name__ == "__main__":
    main()
