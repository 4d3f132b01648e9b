#!/usr/bin/env python3
"""Lists the places in crates/*/src where an older form of the language may stand, by the points of docs/DESIGN-PASS.md.

    python3 tools/places.py            the counts
    python3 tools/places.py --list     each place, too

A row is a place to look at, and no verdict. Point 8 is about proofs/, and has no row here. Three rows leave out the tests and
programs that stood when that page's counts were taken; later ones, such as commits, card, storing and readings, they count.
"""
import difflib
import glob
import re
import sys

TOKEN = re.compile(r"b?\"[^\"]*\"|'[a-z_]+|[A-Za-z_]\w*|\d\w*|[^\sA-Za-z_0-9]")
KEYWORDS = set(
    "fn pub let mut for in if else match return while loop break continue self Self impl where true false Ok Err Some None "
    "requires ensures crate super as u8 u16 u32 u64 usize bool const ref move dyn".split()
)


def sources():
    for path in sorted(glob.glob("crates/*/src/**/*.rt", recursive=True)):
        with open(path) as file:
            yield path[len("crates/"):], file.read().split("\n")


def code(line):
    return line.split("//")[0]


def matching(pattern, files):
    found = []
    for path, lines in files:
        for number, line in enumerate(lines, 1):
            if re.search(pattern, code(line)):
                found.append(f"{path}:{number}: {line.strip()}")
    return found


def functions(files):
    """Each function with a body: its place, its name, and its tokens with names, numbers and texts left out."""
    for path, lines in files:
        for at, line in enumerate(lines):
            if not re.match(r"\s*(pub(\(\w+\))? )?fn \w+", line):
                continue
            indent = line[: len(line) - len(line.lstrip())]
            end = at
            while end < len(lines) and not re.search(r"[;{]$", lines[end]) and lines[end] != indent + "{":
                end += 1
            if end == len(lines) or lines[end].endswith(";"):
                continue
            while lines[end] != indent + "}":
                end += 1
            body = [code(text) for text in lines[at : end + 1] if not re.match(r"\s*(requires|ensures)\b", text)]
            shape = []
            for token in TOKEN.findall("\n".join(body)):
                if token[0] in "\"'" or token.startswith('b"'):
                    shape.append("s")
                elif token[0].isdigit():
                    shape.append("n")
                elif token[0].isalpha() or token[0] == "_":
                    shape.append(token if token in KEYWORDS else "i")
                else:
                    shape.append(token)
            name = re.search(r"fn (\w+)", line).group(1)
            yield f"{path}:{at + 1}", name, shape


def twins(files):
    """Pairs of functions of nearly the same shape, of more than one statement."""
    found = []
    every = [f for f in functions(files) if len(f[2]) >= 26]
    for i, (place, name, shape) in enumerate(every):
        for other, its_name, its_shape in every[i + 1 :]:
            if abs(len(shape) - len(its_shape)) > 0.2 * len(shape):
                continue
            match = difflib.SequenceMatcher(None, shape, its_shape, autojunk=False)
            if match.quick_ratio() < 0.85 or match.ratio() < 0.85:
                continue
            found.append(f"{place} {name} ~ {other} {its_name}")
    return found


def namesakes(files):
    """Functions that have the name of one in another file, but for those of traits, and of every program and type."""
    places = {}
    for place, name, shape in functions(files):
        places.setdefault(name, []).append(place)
    common = set("new fmt from main run read write sync pages power_return is_good key_of kind_byte allows_leftmost".split())
    return [f"{name}: {', '.join(at)}" for name, at in sorted(places.items()) if len(at) > 1 and name not in common]


def repeated_requirements(files):
    """Facts that three or more inner functions ask for."""
    places = {}
    for path, lines in files:
        for line in lines:
            found = re.match(r"\s*requires (?:\w+ )?\{ (.*) \}$", line)
            if not found:
                continue
            fact = re.sub(r"\b\w+\.(now|old|new)\b", "X", found.group(1))
            fact = re.sub(r"C\.rules\.kind|\b[12]\b", "K", fact)
            fact = re.sub(r"leaf_|branch_|C\.rules\.", "", fact)
            places.setdefault(fact, []).append(path)
    return [f"{len(at)} contracts: {fact}" for fact, at in sorted(places.items()) if len(at) >= 3]


def travelling(files):
    """Runs of three or more parameters that stand in three or more functions."""
    places = {}
    for path, lines in files:
        for signature in re.findall(r"fn \w+(?:<[^(]*>)?\(([^)]*)\)", "\n".join(map(code, lines))):
            names = [re.sub(r"^(mut )?(\w+).*$", r"\2", p.strip()) for p in signature.split(",") if ":" in p]
            for i in range(len(names) - 2):
                places.setdefault(tuple(names[i : i + 3]), []).append(path)
    return [f"{len(at)} functions: {', '.join(run)}" for run, at in sorted(places.items()) if len(at) >= 3]


def points(files):
    crates = [f for f in files if not f[0].startswith(("cases/", "powercut/", "cachecount/", "pageview/"))]
    return [
        ("1 a fault as an Option, or an enum with a variant for a refusal",
         matching(r"-> Option<Cause>|^\s+Refused\(", files)),
        ("1 a number for a kind of page", matching(r"KIND: u8|fn kind_byte|fn kind_name", files)),
        ("1 a law that answers a number", matching(r"^pub fn \w+\(\) -> u8", crates + [f for f in files if f[0].startswith("cases/src/examples")])),
        ("1 an Option or a Result taken apart and put together again",
         matching(r"(None|Err\(\w+\)|Ok\(_\)|Some\((\w+|_)\)) => (None|Some\(\w+\)|Err\(|Ok\(\w+\)|true|false|0,|1,)", files)),
        ("2 two functions of one shape", twins(files)),
        ("2 functions of one name", namesakes(files)),
        ("3 a loop with a condition", matching(r"\bwhile |\bloop \{", files)),
        ("3 a loop over the numbers of a range", matching(r"\bfor \w+ in [^ ]*\w\.\.", files)),
        ("3 a loop over items that might be a chain", matching(r"^\s*for (\w+|\(.*\)) in (?!.*\w\.\.)", crates)),
        ("4 words, numbers, equality or order by a function of its own",
         matching(r"fn (as_str|name|number|kind_name|call_name|answer_name|cause_number|cause_words|numbered|celled|done|key_less|is|newer)\(", files)),
        ("4 a struct copied field by field", matching(r"(\w+): (\w+)\.\1,", files)),
        ("4 damage made into a fault by hand", matching(r"PageFault::Damaged\(Damage", files)),
        ("5 a fact in three or more contracts", repeated_requirements(files)),
        ("5 three parameters that travel together", travelling(files)),
        ("6 arrays and vectors in a struct", matching(r"^    (pub )?\w+: (Vec<|\[)", crates)),
        ("7 a switch on a step, a table of functions, a box", matching(r"\bdyn |\bBox<|: fn\(|match (call|kind|turn % 3) |match self \{$", [f for f in files if not f[0].endswith("fault.rt")])),
    ]


def main():
    files = list(sources())
    for title, found in points(files):
        print(f"{len(found):4}  {title}")
        if "--list" in sys.argv:
            for place in found:
                print(f"          {place}")


main()
