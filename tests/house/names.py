"""Every name that docs/READING.md and docs/DECISIONS.md put between backticks, and every crate and file that READING leads to, stands in the repository.

A name in backticks is taken apart at dots, slashes, colons, commas and blanks. Each part is a word of a file under crates/, tests/, tools/ or include/, or the
name of a file or folder. `crate, File:` in a table leads to a file of that crate's specs/ or proofs/.
"""
import glob
import os
import re
import sys

ROOT = os.path.realpath(os.path.join(os.path.dirname(os.path.abspath(__file__)), "..", ".."))
PLACES = ("crates", "tests", "tools", "include", "examples", "rust", ".ci", "run", "crates.txt", "docs")
APART = re.compile(r"::|[\s./,:()=]+")
NO_NAME = re.compile(r"^[\d{}<>≤≡+*·…-]*$")


def words():
    out = set()
    for place in PLACES:
        top = os.path.join(ROOT, place)
        for path in [top] + glob.glob(os.path.join(top, "**", "*"), recursive=True):
            out.add(os.path.basename(path))
            out.add(os.path.basename(path).split(".")[0])
            if os.path.isfile(path) and place != "docs":
                with open(path, encoding="utf-8", errors="ignore") as f:
                    out.update(re.split(r"[\s()\[\]{},;|.:`\"/=]+", f.read()))
    return out


def main():
    known, wrong, seen = words() | {"rt", "ci", "specs", "src", "proofs", ""}, [], 0
    for name in ("READING", "DECISIONS"):
        for number, line in enumerate(open(os.path.join(ROOT, "docs", name + ".md"), encoding="utf-8"), 1):
            for quoted in re.findall(r"`([^`]+)`", line):
                for part in APART.split(quoted):
                    seen += 1
                    if part not in known and not NO_NAME.match(part):
                        wrong.append(f"docs/{name}.md:{number}: `{quoted}`: no {part}")
    crates = set(os.listdir(os.path.join(ROOT, "crates")))
    for number, line in enumerate(open(os.path.join(ROOT, "docs", "READING.md"), encoding="utf-8"), 1):
        for crate, file in re.findall(r"\b([a-z_]+), ([A-Z]\w+)(?=[:)])", line):
            seen += 1
            if crate in crates and not any(os.path.isfile(os.path.join(ROOT, "crates", crate, d, file + ".antt")) for d in ("specs", "proofs")):
                wrong.append(f"docs/READING.md:{number}: {crate} has no file {file}")
    print("\n".join(wrong) if wrong else f"{seen} names of the docs stand in the repository")
    return 1 if wrong else 0


if __name__ == "__main__":
    sys.exit(main())
