"""Lists the places that a fault has, and says which is missing: `python3 tools/places.py [CODE or NAME]`.

CONTRIBUTING.md has the recipe of a rule with its fault; each of its places that has the code or the name of
the fault is looked up here, without the prover and without the program. A fault that any place has is
expected in all of them, but those of NOT_ASKED. Without an argument, all faults are looked up and only what
is missing is printed. The last line is `N faults, M places missing`; the exit status is 1 if one is.
"""

import argparse
import glob
import os
import re
import sys
from dataclasses import dataclass

ROOT = os.path.dirname(os.path.dirname(os.path.realpath(__file__)))
CODE = r"(?:F\d\d|[SP]\d)"
EXPLAINED = r'r#"(%s) (\w+) ' % CODE
VARIANT = re.compile(r"    /// (%s): (?:[^\n]*\n    ///)*[^\n]*\n    #\[error\([^\n]*\)\]\n    (\w+)" % CODE)
LABEL = r'= (?:Some \(fault_at |\()(\d+),? \(?codes "(\w+)"'
SOURCES, SPECS = "crates/*/src/**/*.rt", "crates/*/specs/**/*.antt"

# What a fault has no place in: of which codes, and why.
NOT_PRINTED = "no command prints it"
NOT_ASKED = {
    "when it is broken": (r"F07|F50|F6[56]|F70|F8\d", "the relation of its call says it"),
    "rule of docs/batches.md": (r"F07|F50|F6\d|F70|F[89]\d|[SP]\d", "no rule of batches"),
    "plain name": ("F8[12]", NOT_PRINTED),
    "plain rule": ("F8[12]", NOT_PRINTED),
    "case": ("F8[12]", NOT_PRINTED),
}


@dataclass(frozen=True)
class Fault:
    code: str
    name: str


def files(pattern):
    """The texts of the files that a pattern names, by their paths in the repository."""
    found = {}
    for path in sorted(glob.glob(os.path.join(ROOT, pattern), recursive=True)):
        with open(path, encoding="utf-8") as file:
            found[os.path.relpath(path, ROOT)] = file.read()
    return found


def find(texts, pattern):
    """Where a pattern is first in some texts, as `PATH:LINE`, or None."""
    for path, text in texts.items():
        found = re.search(pattern, text, re.MULTILINE)
        if found:
            return f"{path}:{text.count(chr(10), 0, found.start()) + 1}"
    return None


class Repository:
    """The texts in which faults have places."""

    def __init__(self):
        self.sources = {path: text for path, text in files(SOURCES).items() if "/odb_tests_" not in path}
        self.explained = {path: text for path, text in self.sources.items() if path.startswith("crates/odb_explain/")}
        self.code = {path: text for path, text in self.sources.items() if path not in self.explained}
        self.specs = files(SPECS)
        self.page, self.rules = files("docs/faults.md"), files("docs/batches.md")
        self.cases, self.plain = files("tests/cases/*.txt"), files("tests/support/rules*.py")
        self.pages = {**self.page, **files("CONTRIBUTING.md"), **self.code, **self.specs}
        self.variants = list(self.all_variants())

    def all_variants(self):
        """The variants that have a code: the code, the enum and the variant."""
        for text in self.code.values():
            for block in re.finditer(r"^pub enum (\w+) \{\n(.*?)^\}", text, re.MULTILINE | re.DOTALL):
                yield from ((code, block[1], variant) for code, variant in VARIANT.findall(block[2]))

    def variants_of(self, fault):
        """The enums and variants of a fault."""
        return [(enum, variant) for code, enum, variant in self.variants if code == fault.code]

    def faults(self):
        """Every fault that some place has, in the order of its code; of two names of one code both."""
        rows = r'\("(%s)", "(\w+)"' % CODE
        patterns = ((self.page, rf"^### ({CODE}) (\w+),"), (self.code, rows), (self.explained, EXPLAINED))
        found = {it for texts, pattern in patterns for it in pairs(texts, pattern)}
        found |= set(pairs(self.plain, rf'\b({CODE})="(\w+)"'))
        found |= {(f"F{number:>02}", name) for number, name in pairs(self.specs, LABEL)}
        known = {code for code, _ in found}
        found |= {(code, variant) for code, _, variant in self.variants if code not in known}
        return [Fault(*it) for it in sorted(found, key=lambda it: ("FSP".index(it[0][0]), it))]


def pairs(texts, pattern):
    """The pairs that a pattern finds in some texts."""
    return [it for text in texts.values() for it in re.findall(pattern, text, re.MULTILINE)]


def definition(repository, fault):
    """Where a line of definitions says when the rule is broken, by the type of the relation."""
    for enum, variant in repository.variants_of(fault):
        type_of = re.sub("Rule$", "(?:Rule|Fault)", enum)
        for path, text in repository.specs.items():
            for relation in re.findall(rf"^abbrev pub (\w+) : .*\b{type_of}\b.*Type 0$", text, re.MULTILINE):
                found = find({path: text}, rf"^{relation} .*\b{variant}\b.* = ")
                if found:
                    return found
    return None


def label(repository, fault):
    number, name = int(re.sub(r"\D", "", fault.code)), fault.name
    pair = rf'\({number}, codes "{name}"|fault_at {number} \(codes "{name}"\)'
    whole = rf'codes "{fault.code}"(?:,|; name =) codes "{name}"'
    return find(repository.specs, whole if fault.code[0] != "F" else f"{pair}|{whole}")


def test(repository, fault):
    """Where code makes the fault: a use of its variant that is neither an arm of a match nor of the texts."""
    names = "|".join(f"{enum}::{variant}" for enum, variant in repository.variants_of(fault))
    return names and find(repository.code, rf"\b(?:{names})\b(?!(?: \{{[^}}]*\}}|\([^)]*\))? =>)")


def at(part, pattern):
    """Finds the pattern, with the code and the name of the fault in it, in one part of the repository."""
    return lambda repository, fault: find(getattr(repository, part), pattern.format(code=fault.code, name=fault.name))


PLACES = {
    "when it is broken": definition,
    "number and name": label,
    "variant with its message": at("code", r"^    /// {code}: (?:[^\n]*\n    ///)*[^\n]*\n    #\[error\("),
    "row": at("code", r'\("{code}", "{name}"|code: "{code}",\s+name: "{name}"'),
    "where code finds it": test,
    "section of docs/faults.md": at("page", r"^### {code} {name}, "),
    "rule of docs/batches.md": at("rules", r"\[[^\]]*\b{code}\b[^\]]*\]"),
    "text of explain": at("explained", r'r#"{code} {name} '),
    "plain name": at("plain", r'\b{code}="{name}"'),
    "plain rule": at("plain", r'"{code}"'),
    "line of the list of explain": at("cases", r"^out {code} {name} "),
    "case": at("cases", r"^out fault {code} {name} "),
}


def not_asked(fault, title):
    """Why the fault has to have no such place, or None if it has to have one."""
    codes, why = NOT_ASKED.get(title, ("", None))
    return why if re.fullmatch(codes, fault.code) else None


def phase_of(repository, fault):
    """The codes of its enum that follow one another, up to the fault, for each enum that it is in."""
    for enum in {enum for enum, _ in repository.variants_of(fault)}:
        codes = {code for code, other, _ in repository.variants if other == enum}
        before, number = [fault.code], int(fault.code[1:])
        while (code := f"{fault.code[0]}{number - 1:0{len(fault.code) - 1}}") in codes:
            before, number = [code, *before], number - 1
        yield before, f"{fault.code[0]}{int(fault.code[1:]) + 1:0{len(fault.code) - 1}}" not in codes


def short_ranges(repository, fault):
    """The texts with a range of rules that ends just before the fault, if the fault is the last of its phase."""
    for codes, is_last in phase_of(repository, fault):
        if is_last and len(codes) > 1:
            for path, text in repository.pages.items():
                for found in re.finditer(rf"\b({CODE})\s+to\s+{codes[-2]}\b", text):
                    if found[1] in codes:
                        yield f"{path}:{text.count(chr(10), 0, found.start()) + 1}"


def model(repository, fault, title):
    """Where the fault before it has such a place."""
    faults = repository.faults()
    for other in reversed(faults[: faults.index(fault)]):
        found = PLACES[title](repository, other)
        if found:
            return f"; {other.code} has it at {found}"
    return ""


def look_up(repository, fault, shows):
    """Prints what is missing of a fault, or all of its places; returns how many are missing."""
    lines, missing = [], []
    for title, place in PLACES.items():
        found = place(repository, fault) or not_asked(fault, title)
        lines.append(f"{title}: {found}")
        if not found:
            missing.append(f"{title}{model(repository, fault, title)}")
    missing += [f"the range at {found} ends before it" for found in short_ranges(repository, fault)]
    if shows or missing:
        print(f"{fault.code} {fault.name}")
    print("".join(f"  {it}\n" for it in lines if shows and not it.endswith(": None")), end="")
    print("".join(f"  missing: {it}\n" for it in missing), end="")
    return len(missing)


def main():
    parser = argparse.ArgumentParser(description="Lists the places of a fault, and says which is missing.")
    parser.add_argument("fault", nargs="?", metavar="FAULT", help="a code or a name; else all are looked up")
    wanted = parser.parse_args().fault
    repository = Repository()
    faults = repository.faults()
    if wanted:
        faults = [it for it in faults if wanted.lower() in (it.code.lower(), it.name.lower())]
    count = sum(look_up(repository, it, bool(wanted)) for it in faults)
    print(f"{len(faults)} faults, {count} places missing" if faults else f"{wanted}: no place has this fault")
    return 1 if count or not faults else 0


if __name__ == "__main__":
    sys.exit(main())
