#!/usr/bin/env python3
"""docs/PROMISES.md names what is there: every definition, law, function and file in it stands in the repository, and its table of wrong
programs has every must-fail edit and no other."""
import pathlib
import re
import sys

ROOT = pathlib.Path(__file__).resolve().parent.parent

promises = (ROOT / "docs/PROMISES.md").read_text()
sources = [p for folder in ("crates", "include", "tests", "bindings/rust/src") for p in (ROOT / folder).rglob("*") if "out" not in p.parts]
text = "\n".join(p.read_text() for p in sources if p.suffix in (".antt", ".rt", ".h", ".rs") and p != pathlib.Path(__file__))
words = set(re.findall(r"[^\s(){}\[\].,;λ∷→×:`\"/&<>=]+", text)) | {p.name for p in (ROOT / "crates").iterdir()}
edits = {p.stem for p in ROOT.glob("crates/*/must-fail/*.edit")}

faults = []
for quoted in re.findall(r"`([^`\n]+)`", promises):
    if "/" in quoted:
        path = re.sub(r"^python3 ", "", quoted).split()[0].rstrip("/")
        if not (ROOT / path).exists() and not list(ROOT.glob(f"crates/*/{path}")):
            faults.append(f"no file {quoted}")
        continue
    for word in re.split(r"::|\.\.|[\s(),:]+", quoted):
        if word.strip(".") and word.strip(".") not in words | edits and not word.isdigit():
            faults.append(f"no {word} of `{quoted}`")

named = set()
for row in promises[promises.index("| wrong program | edit |") :].split("\n")[2:]:
    if not row.startswith("|"):
        break
    column = re.sub(r"`[^`]*`|\(definition\)", "", row.split("|")[2])
    named |= set(re.findall(r"\w+", column))
faults += [f"no edit {name}" for name in sorted(named - edits)]
faults += [f"edit {name} is not named" for name in sorted(edits - named)]
print("\n".join(faults) or f"{len(named)} must-fail edits and every name are there")
sys.exit(bool(faults))
