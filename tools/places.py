#!/usr/bin/env python3
"""Lists the places of docs/DESIGN-PASS.md: where the code of crates/*/src could use a newer form of the language.

Run at the top of the repository: `python3 tools/places.py` prints a count for each point, and with --list each place.
Tests (tests.rt, and what follows #[cfg(test)]) and the tables of sums are left out. A place that stays has a comment
`// Stays: REASON` at most four lines above it; those are counted apart.
"""
import collections
import pathlib
import re
import sys

LINES = {
    "1 a flag for a refusal: a method that changes something and answers a bool": r"fn \w+\(&mut self.*-> bool|fn \w+\(.*&mut .*-> bool",
    "1 a number for a kind of message": r"kind: u8|kind_of\(\w+\) [!=]=|match kind_of|is_whole\(\w+, \d|head\([\w.]+, \d\)|^\s*\[\d, (self|bridge|a,)|&\[\d, self",
    "1 a number for a refusal": r"fn number\(self\) -> u8",
    "1 a length or an end for none": r"fn (find_\w+|lowest)\(.*-> (usize|u8)",
    "1 an answer handed on by hand": r"if let Err\((\w+)\) = \w+\(\w+\) \{|Err\((\w+)\) => Err\(\2\)|Err\((\w+)\) => return Err\(\3\)|Ok\((\w+)\) => Ok\(\4\)|Some\((\w+)\) => Some\(\w+\)|None => None,|Some\(_\) => true|None => false",
    "1 a fault for want of a value, by hand": r"else \{ *$",
    "3 a loop that counts": r"^\s*(for _?\w+ in 0\.\.|while (?!let))|'\w+: for \w+ in 0\.\.",
    "4 equality or order by hand": r"fn (same|same_port|same_address|is|is_newer_than|is_earlier|lives_at)\(|fn is_named\(station|\.value\(\) [!=]= |a\.\w+ == b\.\w+",
    "4 a conversion by hand": r"fn (fault_of|number|value|index)\(&?self\)|fn fault_of\(|fn new\((value|word|address): [^,]*(, vlan: u16)?\) -> Option<| as (u32|u64|usize)\b",
    "4 printing by hand": r"\{node\}\.\{port\}|\{other\}\.\{end\}|:02x\}:|fault \{number\}|with \{number\}",
    "6 a length beside a buffer, parallel arrays, a sorted list searched, an index into a growing list": r"^\s+(pub )?(len|used): usize,|^\s+pub ports: u8,|^\s+waits: BridgeSet,|^\s+(pub(\(crate\))? )?entries: Vec<Entry>,|^    depth: \[u8; MOST_BRIDGES\],|= queue\[i\]",
    "7 a step chosen by a value": r"match (kind|verb|command) \{",
}
SHAPES = re.compile(r"enum (\w+)(?:<'a>)? \{(.*?)\n\}", re.S)


def code_of(path):
    """The lines of a file, without what is for tests alone."""
    out = []
    for line in path.read_text().split("\n"):
        if line.startswith("#[cfg(test)]"):
            break_here = path.name in ("lib.rt",) and "mod tests {" in path.read_text()
            if break_here:
                break
        out.append(line)
    return out


def files():
    for path in sorted(pathlib.Path("crates").glob("*/src/**/*.rt")):
        if path.name not in ("tests.rt", "tables.rt"):
            yield path


def stays(lines, i):
    return any("Stays:" in lines[k] for k in range(max(0, i - 4), i + 1))


KEEP = set("fn let mut if else match for in while return Some None Ok Err self true false as break continue pub ref move loop usize u8 u16 u32 u64".split())


def twins():
    """Functions of one crate whose bodies are alike but for names and numbers, of twelve words or more."""
    shapes = collections.defaultdict(list)
    for path in files():
        text = "\n".join(line for line in code_of(path) if not line.lstrip().startswith("//"))
        for m in re.finditer(r"^( *)(?:pub(?:\(crate\))? )?(?:extern \"C\" )?fn (\w+).*?\n\1\{\n(.*?)\n\1\}", text, re.S | re.M):
            words = re.findall(r"\w+|[^\w\s]", m.group(3))
            if len(words) < 12:
                continue
            shape = " ".join("7" if w[0].isdigit() else w if w in KEEP or not re.match(r"\w", w) else "x" for w in words)
            shapes[(path.parts[1], shape)].append(f"{path}:{m.group(2)}")
    return sorted(rows for rows in shapes.values() if len(rows) > 1)


def main():
    show = "--list" in sys.argv
    found = collections.defaultdict(list)
    clauses = collections.defaultdict(set)
    params = collections.defaultdict(set)
    for path in files():
        lines = code_of(path)
        crate = path.parts[1]
        for name, pattern in LINES.items():
            rule = re.compile(pattern)
            for i, line in enumerate(lines):
                if line.lstrip().startswith("//") or not rule.search(line):
                    continue
                if name.startswith("1 a number for a kind") and "Kind::" in line:
                    continue
                if name.startswith("1 a fault") and not re.match(r"\s*(return (Err|None|Ok|false)|break)", lines[i + 1] if i + 1 < len(lines) else ""):
                    continue
                if name.startswith("1 a fault") and "let " not in line:
                    continue
                found[name].append((f"{path}:{i + 1}", line.strip(), stays(lines, i)))
        text = "\n".join(lines)
        for m in SHAPES.finditer(text):
            arms = [a.strip() for a in m.group(2).split("\n") if a.strip() and not a.strip().startswith("//")]
            plain = [a for a in arms if re.fullmatch(r"\w+,", a)]
            if len(arms) == 2 and not re.search("Fault|Refus", m.group(1)) and (len(plain) == 1 or any("Fault" in a for a in arms)):
                i = text[: m.start()].count("\n")
                found["1 an enum of the shape of Option or Result"].append((f"{path}:{i + 1}", m.group(1), stays(lines, i)))
        name = ""
        for i, line in enumerate(lines):
            m = re.match(r"\s*(?:pub(?:\(crate\))? )?fn (\w+)", line)
            if m:
                name = f"{path}:{i + 1} {m.group(1)}"
                whole = " ".join(lines[i : i + 14]).split("{")[0].split("->")[0]
                named = re.findall(r"(\w+): (&?(?:mut )?[\w<>\[\]; ']+)", whole)
                kinds = tuple(sorted({f"{a}: {b}".strip() for a, b in named}))
                if len(kinds) >= 3:
                    params[(crate, kinds)].add(name)
            m = re.match(r"\s*(?:requires|ensures)\*? ?(\w+ )?\{ (.*) \}\s*$", line)
            if m and name:
                clauses[(crate, m.group(2))].add(name)
    for (crate, clause), where in clauses.items():
        if len(where) >= 3:
            found["5 a clause that stands at three functions or more"].append((crate, f"{len(where)} x {clause[:110]}", False))
    groups = collections.defaultdict(set)
    for (crate, kinds), where in params.items():
        for other_crate, other in params:
            both = tuple(sorted(set(kinds) & set(other)))
            if other_crate == crate and len(both) >= 3:
                groups[(crate, both)] |= where
    for (crate, kinds), where in groups.items():
        if len(where) >= 3:
            found["5 three parameters that go together at three functions or more"].append((crate, f"{len(where)} x {', '.join(kinds)}", False))
    for rows in twins():
        found["2 functions of one shape in one crate"].append(("crates", "; ".join(rows), False))
    for name in sorted(found):
        rows = found[name]
        kept = sum(1 for r in rows if r[2])
        print(f"{len(rows):4} {name}" + (f" ({kept} with a reason)" if kept else ""))
        if show:
            for where, line, stay in rows:
                print(f"       {where}: {line}" + ("   [stays]" if stay else ""))
    answers = list(pathlib.Path("crates").glob("*/proofs/**/Answers.antt"))
    whole = sum(len(p.read_text().split("\n")) for p in pathlib.Path("crates").glob("*/proofs/**/*.antt"))
    goals = sum(len(re.findall(r"^(?:pub )?[\w'+-]+ (?:\w+ )*c ?=", p.read_text(), re.M)) for p in answers)
    lemmas = sum(len(re.findall(r"^pub [\w'-]+ :", p.read_text(), re.M)) for p in pathlib.Path("crates").glob("*/proofs/*.antt"))
    print(f"{len(answers):4} 8 files of answers, with {goals} answers; {lemmas} public lemmas; {whole} lines of proof in all")


main()
