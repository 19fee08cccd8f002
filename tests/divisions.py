#!/usr/bin/env python3
"""Document 02, P5: packing divides by no capacity. Looks for divisions in the source, and in the machine code that a call runs.

usage: divisions.py source               the crate packer and the crates that it is built on
       divisions.py library ARCHIVE      every function of the archive that rights_pack reaches
       divisions.py self-test            that both notice divisions written on purpose

In the source, a divisor must be a power of two: as a number, or as a constant that has no other value in these crates. Machine code (x86-64) must have no division,
and nothing by which compilers divide by a constant: no product's high half, no product with a number but the check's prime, no number of
more than 16 bits but the check's two.
"""
import pathlib
import re
import subprocess
import sys
import tempfile

ROOT = pathlib.Path(__file__).resolve().parent.parent
CRATE = "packer"
CALL = "rights_pack"
# the prime of a block's check, and where the check starts
PRIME, START = 16777619, 2166136261


# ---- source

def code_of(text):
    """The text of a source without contracts, comments and what only contracts use; lines stay where they are."""
    blank = lambda m: re.sub(r"[^\n]", " ", m.group())
    text = re.sub(r"//[^\n]*|^ghost use [^\n]*", blank, text, flags=re.M)
    kept, at = [], 0
    for clause in re.finditer(r"\b(?:requires|ensures)\*?(?: \w+)? \{", text):
        if clause.start() < at:
            continue
        end, deep = clause.end(), 1
        while deep and end < len(text):
            deep += {"{": 1, "}": -1}.get(text[end], 0)
            end += 1
        kept += [text[at : clause.start()], re.sub(r"[^\n]", " ", text[clause.start() : end])]
        at = end
    return "".join(kept) + text[at:]


def power_of_two(text):
    digits = text.replace("_", "")
    return digits.isdigit() and int(digits).bit_count() == 1


def constants_in(texts):
    """All values of each constant, by its name alone."""
    constants = {}
    for text in texts:
        for name, value in re.findall(r"\bconst (\w+): \w+ = ([^;]+);", code_of(text)):
            constants.setdefault(name, []).append(value)
    return constants


def divisions_in(text, constants):
    """(line, what) of each division whose divisor is not a power of two."""
    code = code_of(text)
    found = []
    for m in re.finditer(r"[/%]=?\s*([\w:]*)|\.(?:\w*_)?(?:div|rem)(?:_\w*)?(?=\()", code):
        divisor = m.group(1) or ""
        values = constants.get(divisor.split("::")[-1], [divisor])
        if not all(power_of_two(v) for v in values):
            found.append((code.count("\n", 0, m.start()) + 1, m.group()))
    return found


def sources():
    """Every source of the crate and of all crates below it."""
    lines = [line.split("#")[0] for line in (ROOT / "crates.txt").read_text().split("\n")]
    below = {name: rest.split() for name, _, rest in (line.partition(":") for line in lines if ":" in line)}
    crates = [CRATE]
    for crate in crates:
        crates += [other for other in below.get(crate, []) if other not in crates]
    folders = [ROOT / "crates" / crate / "src" for crate in crates]
    empty = [str(folder) for folder in folders if not any(folder.glob("**/*.rt"))]
    if empty:
        sys.exit(f"divisions.py: no source in {', '.join(empty)}")
    return [path for folder in folders for path in sorted(folder.glob("**/*.rt"))]


def look_at_sources():
    texts = {path: path.read_text() for path in sources()}
    constants = constants_in(texts.values())
    found = [(path, *what) for path, text in texts.items() for what in divisions_in(text, constants)]
    for path, line, what in found:
        print(f"{path.relative_to(ROOT)}:{line}: {what}")
    print(f"{len(texts)} sources of packing, {len(found)} divisions by what is not a power of two")
    return not found


# ---- machine code

def functions_of(path):
    """Each function of an archive or object: its instructions, and the functions and sections that they name. And the functions of
    each section."""
    text = subprocess.run(["objdump", "-dr", "--no-show-raw-insn", path], check=True, capture_output=True, text=True).stdout
    if "file format elf64-x86-64" not in text:
        sys.exit(f"divisions.py: {path} is not of x86-64")
    functions, sections = {}, {}
    for line in text.split("\n"):
        if section := re.match(r"Disassembly of section (.+):$", line):
            inside = sections.setdefault(section.group(1), set())
        elif head := re.match(r"[0-9a-f]+ <(.+)>:$", line):
            instructions, named = functions.setdefault(head.group(1), ([], set()))
            inside.add(head.group(1))
        elif relocation := re.match(r"\s+[0-9a-f]+: R_X86_64_\w+\s+(\S+?)(?:[-+]0x[0-9a-f]+)?$", line):
            named.add(relocation.group(1))
        elif instruction := re.match(r"\s+[0-9a-f]+:\t(.+)", line):
            instructions.append(instruction.group(1).strip())
            named.update(re.findall(r"<([^>+]+)(?:\+0x[0-9a-f]+)?>", instruction.group(1)))
    return functions, sections


def reached_from(functions, sections, call):
    seen, todo = set(), [call]
    while todo:
        name = todo.pop()
        todo.extend(sections.get(name, set()) - seen)
        if name in functions and name not in seen:
            seen.add(name)
            todo.extend(functions[name][1])
    return seen


def divides(instruction):
    """Whether an instruction is a division, or one by which compilers divide."""
    name, _, operands = instruction.partition(" ")
    numbers = [int(n, 16) for n in re.findall(r"\$(0x[0-9a-f]+)", operands)]
    if "div" in name or ("mul" in name and not (name.startswith("imul") and "," in operands)):
        return True
    if name.startswith("imul") and numbers:
        return numbers != [PRIME]
    return any(min(n, abs(n - 2**32), abs(n - 2**64)) >= 2**16 and n not in (PRIME, START) for n in numbers)


def look_at(path, call):
    """(function, instruction) of each division that the call reaches, and how many functions those are."""
    functions, sections = functions_of(path)
    if call not in functions:
        sys.exit(f"divisions.py: {path} has no {call}")
    reached = sorted(reached_from(functions, sections, call))
    return [(name, i) for name in reached for i in functions[name][0] if divides(i)], reached


def look_at_library(path):
    found, reached = look_at(path, CALL)
    for name, instruction in found:
        print(f"{name}: {instruction}")
    print(f"{len(reached)} functions that {CALL} reaches, {len(found)} instructions that divide")
    return not found


# ---- what must be noticed, and what must not

REFUSED_SOURCE = [
    "let block = row / 125;",
    "let place = row % 83;",
    "let blocks = (rows + 499) / 500;",
    "ensures { result ≡ block }\n{\n    row / 125\n}",
    "let block = row / capacity;",
    "let place = row % kind.capacity;",
    "let half = row / 250;",
    "row /= 125;",
    "let block = row / (125);",
    "let block = row / ContainmentRecord::CAPACITY;",
    "const CAPACITY: usize = 125;\nlet place = row % CAPACITY;",
    "const SIZE: usize = 6;\nconst SIZE: usize = 4;\nlet count = used / ArrowRecord::SIZE;",
    "let blocks = rows.div_ceil(125);",
    "let place = row.wrapping_rem(83);",
    "const CAPACITY: usize = 5 * 25;\nlet place = row % CAPACITY;",
]
ADMITTED_SOURCE = [
    "let high = x / 256;",
    "let low = x % 65_536;",
    "const BLOCK_SIZE: usize = 512;\nlet blocks = length / BLOCK_SIZE;",
    "let at = 512 * block + 8 + 6 * place;",
    "// row / 125",
    "ensures { result ≡ row / 125\n    × (row % 125 ≡ 0) }",
    "requires in_range { row / 125 < 4 }\n    ensures first { (g : {A : ℕ} → A) → result ≡ row / 125 }",
    "ghost use Rattle.std.specs.Prelude.{◌/◌, ◌%◌};",
]
# constants of one source, a division in another, and whether it must be refused
TWO_SOURCES = [
    ("pub const BLOCK_SIZE: usize = 512;", "let blocks = length / BLOCK_SIZE;", False),
    ("impl ArrowRecord {\n    pub const CAPACITY: usize = 83;\n}", "let place = row % ArrowRecord::CAPACITY;", True),
    ("const SIZE: usize = 4;", "const SIZE: usize = 6;\nlet count = used / SIZE;", True),
    ("const OTHER: usize = 4;", "let count = used / SIZE;", True),
]
REFUSED_CODE = [f"x {op} {by}" for op in "/%" for by in (125, 83, 500, 250)]
REFUSED_CODE += [f"if x % {by} == 0 {{ 1 }} else {{ 0 }}" for by in (125, 83, 500)]
REFUSED_CODE += ["if y == 0 { 0 } else { x / y }", "inner(x)"]
ADMITTED_CODE = ["x / 4", "x % 16", "x * y", "512 * x", "if x + 1 == 125 { 0 } else { x + 1 }"]


def self_test():
    pieces = [("", text, True) for text in REFUSED_SOURCE] + [("", text, False) for text in ADMITTED_SOURCE] + TWO_SOURCES
    wrong = []
    for other, text, refused in pieces:
        if bool(divisions_in(text, constants_in([other, text]))) != refused:
            wrong.append(f"{'admitted' if refused else 'refused'}: {text}")
    looks = len(pieces)
    with tempfile.TemporaryDirectory() as folder:
        for level in "0123sz":
            for width in ("u16", "u32", "u64"):
                body = [f"#[inline(never)] fn inner(x: {width}) -> {width} {{ x / 125 + 1 }}"]
                for k, code in enumerate(REFUSED_CODE + ADMITTED_CODE):
                    body.append(f'#[no_mangle] pub extern "C" fn call_{k}(x: {width}, y: {width}) -> {width} {{ let _ = y; {code} }}')
                source, compiled = pathlib.Path(folder, "calls.rs"), pathlib.Path(folder, "calls.o")
                source.write_text("\n".join(body))
                subprocess.run(["rustc", "--edition", "2021", "--crate-type", "lib", "--emit", "obj", "-C", f"opt-level={level}",
                                "-C", "overflow-checks=off", "-o", compiled, source], check=True)
                for k, code in enumerate(REFUSED_CODE + ADMITTED_CODE):
                    looks += 1
                    noticed = bool(look_at(compiled, f"call_{k}")[0])
                    if noticed != (k < len(REFUSED_CODE)):
                        wrong.append(f"{'refused' if noticed else 'admitted'}: {code} of {width} at level {level}")
    for what in wrong:
        print(what)
    print(f"{looks} pieces of code, {len(wrong)} judged wrong")
    return not wrong


if __name__ == "__main__":
    match sys.argv[1:]:
        case ["source"]:
            good = look_at_sources()
        case ["library", archive]:
            good = look_at_library(archive)
        case ["self-test"]:
            good = self_test()
        case _:
            sys.exit(__doc__)
    sys.exit(not good)
