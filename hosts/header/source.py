"""Holds the prototypes and structs of the header to the functions and structs that the library is made from: names,
types and order of parameters and fields. Usage: source.py HEADER CRATES"""
import pathlib
import re
import sys

TYPES = {"u8": "uint8_t", "u32": "uint32_t", "u64": "uint64_t", "i32": "int32_t", "i64": "int64_t"}
STRUCTS = {
    "Posted": "posted", "Counted": "counted", "EntryRead": "entry_read", "BalanceAnswer": "balance", "Tally": "sums",
    "TallyAnswer": "tally_answer", "Month": "month_figures", "MonthAnswer": "month_answer",
    "CeilingAnswer": "ceiling_answer", "FirstDayAnswer": "first_day_answer", "Controlled": "controlled",
    "FileRead": "file_read", "Collateral": "collateral_answer", "MonthReport": "report",
}
LENGTHS = {}  # lengths of arrays by the names of their constants
LINES = {"REPORT_FIGURES": "LINE_SUMS"}  # of lines one after the other, in C an array of lines: the length of a line


def c_type(rattle):
    return TYPES.get(rattle) or "fanzsoreb_" + STRUCTS[rattle]


# a lent slice is a pointer and a length; that of a book is its length in bytes or its words
def c_parameter(text):
    name, rattle = text.strip().split(": ")
    slice_of = re.fullmatch(r"&(mut )?\[(\w+)\]", rattle)
    if not slice_of:
        return c_type(rattle) + " " + name
    length = name + "_length" if name != "book" else "length" if slice_of[2] == "u8" else "words"
    return ("" if slice_of[1] else "const ") + c_type(slice_of[2]) + " *" + name + ", size_t " + length


def c_lengths(length):
    if length not in LINES:
        return "[" + LENGTHS.get(length, length) + "]"
    lines, left = divmod(int(LENGTHS[length]), int(LENGTHS[LINES[length]]))
    assert left == 0, length
    return "[" + str(lines) + "][" + LENGTHS[LINES[length]] + "]"


def c_field(text):
    name, rattle = re.fullmatch(r"pub (\w+): (.+)", text.strip()).groups()
    array = re.fullmatch(r"\[(\w+); (\w+)\]", rattle)
    return c_type(array[1]) + " " + name + c_lengths(array[2]) if array else c_type(rattle) + " " + name


def parts(text):
    return [p for p in text.split(",") if p.strip()]


def of_source(crates):
    found = set()
    for path in crates.glob("host*/src/*.rt"):
        for name, given, answer in re.findall(r'pub extern "C" fn (\w+)\(([^)]*)\) -> (\w+)', path.read_text()):
            found.add(c_type(answer) + " " + name + "(" + (", ".join(map(c_parameter, parts(given))) or "void") + ")")
    types = "".join((crates / name / "src/lib.rt").read_text() for name in ("case_figures", "rules"))
    LENGTHS.update(re.findall(r"pub const (\w+): usize = (\d+);", types))
    for name, fields in re.findall(r"#\[repr\(C\)\]\n(?:#\[[^\n]*\]\n)*pub struct (\w+) \{(.*?)\n\}", types, re.S):
        if name in STRUCTS:
            found.add("fanzsoreb_" + STRUCTS[name] + " { " + "; ".join(map(c_field, parts(fields))) + " }")
    return found


# 'uint32_t a, b' is two fields
def fields_of(text):
    for declared in filter(str.strip, text.split(";")):
        kind, names = declared.split(None, 1)
        yield from (kind + " " + name.strip() for name in names.split(","))


def of_header(header):
    text = re.sub(r"/\*.*?\*/", "", header.read_text(), flags=re.S)
    found = {" ".join(p.split()) for p in re.findall(r"^(\w+ fanzsoreb_\w+\([^)]*\));", text, re.M)}
    for fields, name in re.findall(r"typedef struct \{([^}]*)\} (\w+);", text):
        if name != "fanzsoreb_case":  # the header's own; fanzsoreb_collateral_of takes it apart
            found.add(name + " { " + "; ".join(fields_of(fields)) + " }")
    return {p.replace("( ", "(") for p in found}


source, header = of_source(pathlib.Path(sys.argv[2])), of_header(pathlib.Path(sys.argv[1]))
for line in sorted(source - header):
    print("not in the header: " + line)
for line in sorted(header - source):
    print("not in the library: " + line)
print(len(source), "prototypes and structs of the library,", len(header), "of the header")
sys.exit(source != header)
