#!/usr/bin/env python3
"""Compares include/morphd.h with the functions that are proved: which there are; the type, the order and the name of each
parameter and of each answer; the numbers of operations and refusals; and the version. One function is not proved: it tells which build
runs, and stands where that is chosen (library/picker.c).

    python3 checks/header.py
    python3 checks/header.py --test    spoils copies of both sides, and sees that each is told

The compiler of C sees the header alone, and the prover the crates alone. So what is swapped in one of them links all the same, and
takes a height for a width.
"""
import pathlib
import re
import sys

ROOT = pathlib.Path(__file__).resolve().parent.parent
HEADER = "include/morphd.h"
PICKER = "library/picker.c"
GEODESIC = "crates/mw_c_geodesic/specs"
LEVELS = "crates/mw_c_geodesic_levels/specs"
CRATES = re.compile(r"mw_c(_calls|_arrays|_geodesic|_geodesic_levels)?")
C_FUNCTION = re.compile(r"^(\w+) (morphd_\w+)\(([^;]*)\);", re.MULTILINE)
PICKER_FUNCTION = re.compile(r"^(\w+) (morphd_\w+)\(void\) {$", re.MULTILINE)
OWN_FUNCTION = re.compile(r'^#\[unsafe\(no_mangle\)\]\npub extern "C" fn (\w+)\(([^)]*)\) -> (\w+)$', re.MULTILINE)
CONSTANT = re.compile(r"^ +MORPHD_(\w+) = (\d+),?", re.MULTILINE)
# What C calls the length of an array; of any other it has the array's name and _count.
COUNTS = {"samples": "count", "pixels": "count"}
OPERATORS = {"erosion": "ERODE", "dilation": "DILATE", "opening": "OPEN", "closing": "CLOSE", "gradient": "GRADIENT",
             "white_top_hat": "WHITE_TOP_HAT", "black_top_hat": "BLACK_TOP_HAT", "rank": "RANK"}
KINDS = {"regional_maxima": "MAXIMA", "regional_minima": "MINIMA", "area_opening": "AREA_OPENING", "area_closing": "AREA_CLOSING"}
METHODS = {"reconstruction": "BY_DILATION", "reconstruction_by_erosion": "BY_EROSION"}
METRICS = {"CityBlock": "CITY_BLOCK", "Chessboard": "CHESSBOARD", "SquaredEuclid": "SQUARED_EUCLID"}
# The refusals that no command is answered, by their names in Told.antt.
REFUSALS = {"Frame": "FRAME", "Levels": "LEVELS", "OneWay": "ONE_WAY"}
# A set is never refused for not being one.
NEVER_ANSWERED = {"Binary"}


def texts():
    """Both sides: the text of each file, by its path."""
    homes = [it for it in sorted((ROOT / "crates").iterdir()) if CRATES.fullmatch(it.name)]
    files = [path for home in homes for part in ("src", "specs") for path in sorted((home / part).rglob("*")) if path.is_file()]
    files += [ROOT / HEADER, ROOT / PICKER, ROOT / "crates/mw_model/specs/Codes.antt"]
    return {str(path.relative_to(ROOT)): path.read_text(encoding="utf-8") for path in files}


def without_comments(text):
    return re.sub(r"/\*.*?\*/", "", text, flags=re.DOTALL)


# ---- functions: of each the type of its answer and its parameters, as C writes them


def declared(text):
    """The functions of the header."""
    found = {}
    for answer, name, parameters in C_FUNCTION.findall(without_comments(text)):
        found[name] = (answer, [" ".join(it.split()) for it in parameters.split(",") if it.strip() != "void"])
    return found


def c_type(own):
    """What C calls a number's type, or None."""
    return f"{'int' if own[0] == 'i' else 'uint'}{own[1:]}_t" if re.fullmatch(r"[iu](8|16|32|64)", own) else None


def c_parameters(name, own):
    """The parameters of C in the place of one of a proved function."""
    array = re.fullmatch(r"&(mut )?\[(\w+)\]", own)
    number = re.fullmatch(r"&mut (\w+)", own)
    if own == "Global":
        return []
    if number and c_type(number[1]):
        return [f"{c_type(number[1])} *{name}"]
    if array and c_type(array[2]):
        const = "" if array[1] else "const "
        return [f"{const}{c_type(array[2])} *{name}", f"size_t {COUNTS.get(name, name + '_count')}"]
    return [f"{c_type(own)} {name}"] if c_type(own) else [f"{own} {name}, which C does not have"]


def exported(sources):
    """The proved functions that C calls."""
    found = {}
    for path, text in sources.items():
        for name, parameters, answer in OWN_FUNCTION.findall(text) if path.endswith(".rt") else ():
            pairs = [it.strip().split(": ") for it in parameters.split(",") if it.strip()]
            found[name] = (c_type(answer), [it for pair in pairs for it in c_parameters(*pair)])
    return found


def faults_of_functions(sources):
    ours, theirs = exported(sources), declared(sources[HEADER])
    chosen = {name: (answer, []) for answer, name in PICKER_FUNCTION.findall(sources[PICKER])}
    for name in sorted(chosen):
        if name in ours or theirs.get(name) != chosen[name]:
            yield f"{name} of {PICKER} is {'proved too' if name in ours else f'{theirs.get(name)} in the header'}"
    theirs = {name: it for name, it in theirs.items() if name not in chosen}
    told = len(re.findall(r"\bmorphd_\w+\s*\(", without_comments(sources[HEADER])))
    written = sum(text.count('extern "C"') for path, text in sources.items() if path.endswith(".rt"))
    if (told - len(chosen), written) != (len(theirs), len(ours)) or not ours or not chosen:
        yield f"of {told} functions of the header {len(theirs) + len(chosen)} can be read, and {len(ours)} of {written} proved ones"
    for name in sorted({*ours, *theirs}):
        if name not in theirs or name not in ours:
            yield f"{name} is {'proved' if name in ours else 'in the header'} alone"
        elif ours[name] != theirs[name]:
            (answer, wanted), (told, found) = ours[name], theirs[name]
            pairs = [(x, y) for x, y in zip([answer, *wanted, "no more"], [told, *found, "no more"]) if x != y]
            yield f"{name}: the header has `{pairs[0][1]}` for `{pairs[0][0]}`"


# ---- numbers


def operations(sources):
    """The number of each operation, by the definition of what it makes."""
    text = next((it for path, it in sources.items() if path.endswith(".antt") and "\nflat_of operation k e f =" in it), "")
    body = text.partition("\nflat_of operation k e f =\n")[2].partition("\n\n")[0]
    rows = re.findall(r"operation == (\d+) then (\w+) ", body)
    last = re.findall(r"^ +(\w+) e ", body, re.MULTILINE)
    return {OPERATORS.get(name, name): int(number) for number, name in [*rows, *((len(rows), it) for it in last)]}


def methods(sources):
    """The number of each method of reconstruction, by the definition of what it makes."""
    body = "".join(re.findall(r"^rebuilt_by method e mask marker = (.*)$", sources.get(f"{GEODESIC}/Methods.antt", ""), re.MULTILINE))
    rows = re.findall(r"method == (\d+) then (\w+) ", body)
    last = re.findall(r"else (\w+) ", body)
    return {METHODS.get(name, name): int(number) for number, name in [*rows, *((len(rows), it) for it in last)]}


def metrics(sources):
    """The number of each metric."""
    body = "".join(re.findall(r"^metric_of number = (.*)$", sources.get(f"{GEODESIC}/DistanceCalls.antt", ""), re.MULTILINE))
    rows = re.findall(r"number == (\d+) then metric\.(\w+) ", body)
    last = re.findall(r"else metric\.(\w+)$", body)
    return {METRICS.get(name, name): int(number) for number, name in [*rows, *((len(rows), it) for it in last)]}


def kinds(sources, file, word):
    """The number of each kind of extrema or of area operators, by the definition of what it makes."""
    body = "".join(re.findall(rf"^{word} kind e (?:least )?f = (.*)$", sources.get(f"{LEVELS}/{file}.antt", ""), re.MULTILINE))
    found = re.findall(r"kind == (\d+) then (\w+) ", body)
    last = re.findall(r"else (\w+) ", body)
    return {KINDS.get(name, name): int(number) for number, name in [*found, *((len(found), it) for it in last)]}


def answers(sources):
    """The number of each refusal that the definitions name, and 0."""
    rows = re.findall(r'^number_and_word code\.(\w+) = \((\d+), codes "(\w+)"\)', sources["crates/mw_model/specs/Codes.antt"], re.MULTILINE)
    specs = "".join(text for path, text in sources.items() if path.endswith(".antt") and "/mw_model/" not in path)
    named = set(re.findall(r"\bcode\.(\w+)", specs)) - NEVER_ANSWERED
    told = re.findall(r"^number_told refusal\.(\w+) = pos (\d+)$", sources.get(f"{GEODESIC}/Told.antt", ""), re.MULTILINE)
    more = {REFUSALS.get(name, name): int(number) for name, number in told}
    return {"DONE": 0, **{word: int(number) for name, number, word in rows if name in named}, **more}


def faults_of_numbers(sources):
    header = sources[HEADER]
    extrema, areas = kinds(sources, "Changes", "regional_extrema"), kinds(sources, "Areas", "area_filtered")
    wanted = {**operations(sources), **methods(sources), **metrics(sources), **extrema, **areas, **answers(sources)}
    found = {name: int(number) for name, number in CONSTANT.findall(header)}
    for name in sorted({*wanted, *found}):
        if wanted.get(name) != found.get(name):
            yield f"MORPHD_{name} is {found.get(name, 'missing')} in the header, and {wanted.get(name, 'nothing')} where it is proved"
    told = re.search(r"The version of this file, which is (\d+)", header)
    proved = [it for text in sources.values() for it in re.findall(r"fn morphd_version\(\) -> u32\s+ensures \{ result ≡ (\d+) \}", text)]
    if not told or proved != [told[1]]:
        yield f"the header's version is {told and told[1]}, and the proved one {proved}"


def faults(sources):
    return [*faults_of_functions(sources), *faults_of_numbers(sources)]


# ---- the test of this check: the side, a text that stands there, what comes in its place, and what has to be told

SIDES = "uint32_t width, uint32_t height, uint8_t maxval, const uint8_t *samples, size_t count,\n    uint8_t *out"
SPOILED = [
    ("header", "uint32_t operation, uint32_t k,", "uint32_t k, uint32_t operation,", "morphd_flat_u8"),
    ("header", SIDES, SIDES.replace("width, uint32_t height", "height, uint32_t width"), "morphd_threshold_u8"),
    ("header", SIDES, SIDES.replace("uint8_t maxval", "uint16_t maxval"), "morphd_threshold_u8"),
    ("header", SIDES, SIDES.replace("const ", ""), "morphd_threshold_u8"),
    ("header", SIDES, SIDES.replace(", size_t count", ""), "morphd_threshold_u8"),
    ("header", SIDES, SIDES.replace("uint8_t *out", "uint16_t *out"), "morphd_threshold_u8"),
    ("header", "int32_t morphd_skeleton(", "uint32_t morphd_skeleton(", "morphd_skeleton"),
    ("header", "int32_t morphd_skeleton(", "int32_t morphd_marks(", "morphd_skeleton is proved alone"),
    ("header", "uint32_t morphd_version(void);", "", "morphd_version is proved alone"),
    ("header", "uint32_t morphd_version(void);", "uint32_t morphd_version(void);\nint32_t morphd_more(void);", "morphd_more"),
    ("header", "uint32_t morphd_build(void);", "", "morphd_build of library/picker.c is None"),
    ("header", "uint32_t morphd_build(void);", "uint64_t morphd_build(void);", "morphd_build"),
    ("picker", "uint32_t morphd_build(void) {", "int32_t morphd_build(void) {", "morphd_build"),
    ("picker", "uint32_t morphd_build(void) {", "static uint32_t morphd_build(void) {", "morphd_build is in the header alone"),
    ("picker", "uint32_t morphd_build(void) {", "uint32_t morphd_version(void) {", "morphd_version of library/picker.c is proved too"),
    ("header", "int32_t morphd_restore_u8(", "int32_t  morphd_restore_u8 (", "can be read"),
    ("header", "MORPHD_OPEN = 2", "MORPHD_OPEN = 3", "MORPHD_OPEN"),
    ("header", "    MORPHD_CLOSE = 3, ", "", "MORPHD_CLOSE is missing"),
    ("header", "MORPHD_OVERLAP = 46", "MORPHD_OVERLAP = 47", "MORPHD_OVERLAP"),
    ("header", "MORPHD_DONE = 0,", "MORPHD_DONE = 0,\n    MORPHD_FULL = 48,", "MORPHD_FULL"),
    ("header", "file, which is 1", "file, which is 2", "version"),
    ("proved", "    element_x: u32,\n    element_y: u32,\n", "    element_y: u32,\n    element_x: u32,\n", "`uint32_t element_x`"),
    ("proved", "    maxval: u8,\n", "    maxval: u16,\n", "maxval"),
    ("proved", "    out: &mut [u64],\n", "    out: &mut [u32],\n", "out"),
    ("proved", 'pub extern "C" fn morphd_skeleton(', "fn morphd_skeleton(", "morphd_skeleton is in the header alone"),
    ("proved", "    levels: u32,\n", "    levels: usize,\n", "which C does not have"),
    ("proved", "operation == 2 then opening", "operation == 2 then closing", "MORPHD_OPEN"),
    ("header", "uint32_t *components);", "uint32_t components);", "components"),
    ("header", "MORPHD_MINIMA = 1", "MORPHD_MINIMA = 0", "MORPHD_MINIMA"),
    ("header", "MORPHD_AREA_CLOSING = 1", "MORPHD_AREA_CLOSING = 0", "MORPHD_AREA_CLOSING"),
    ("header", "MORPHD_BY_EROSION = 1", "MORPHD_BY_EROSION = 0", "MORPHD_BY_EROSION"),
    ("header", "MORPHD_CHESSBOARD = 1", "MORPHD_CHESSBOARD = 2", "MORPHD_CHESSBOARD"),
    ("header", "MORPHD_ONE_WAY = 55", "MORPHD_ONE_WAY = 53", "MORPHD_ONE_WAY"),
    ("proved", "    components: &mut u32,\n", "    components: u32,\n", "components"),
    ("proved", "number_told refusal.Frame = pos 53", "number_told refusal.Frame = pos 52", "MORPHD_FRAME"),
    ("proved", '(45, codes "NO_ORIGIN")', '(44, codes "NO_ORIGIN")', "MORPHD_NO_ORIGIN"),
]


def test(sources):
    sides = {HEADER: "header", PICKER: "picker"}
    for side, old, new, wanted in SPOILED:
        paths = [path for path, text in sources.items() if sides.get(path, "proved") == side and old in text
                 and (not path.endswith(".rt") or 'extern "C"' in text)]
        if not paths:
            sys.exit(f"there is no {old!r} to spoil")
        told = faults({**sources, paths[0]: sources[paths[0]].replace(old, new, 1)})
        if not any(wanted in it for it in told):
            sys.exit(f"{paths[0]}: {new!r} in the place of {old!r} is not told, but {told}")
    print(f"each of {len(SPOILED)} spoiled headers and functions is told")


def main():
    sources = texts()
    found = faults(sources)
    for what in found:
        print(f"{HEADER}: {what}", file=sys.stderr)
    if found or sys.argv[1:] != ["--test"]:
        sys.exit(1 if found else 0)
    test(sources)


if __name__ == "__main__":
    main()
