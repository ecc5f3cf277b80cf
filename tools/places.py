#!/usr/bin/env python3
"""Counts the places of docs/DESIGN-PASS.md in the sources: `tools/places.py [COMMIT]`, and lists them with `-l`."""
import re
import subprocess
import sys

ARGS = [a for a in sys.argv[1:] if a != "-l"]
COMMIT = ARGS[0] if ARGS else None


def git(*args):
    return subprocess.run(("git",) + args, check=True, capture_output=True, text=True).stdout


def names(pattern):
    listed = git("ls-tree", "-r", "--name-only", COMMIT) if COMMIT else git("ls-files")
    return [n for n in listed.split() if re.fullmatch(pattern, n)]


def text(name):
    return git("show", f"{COMMIT}:{name}") if COMMIT else open(name, encoding="utf-8").read()


SOURCES = {n: re.sub(r"//.*", "", text(n)) for n in names(r"crates/\w+/src/\w+\.rt")}
FUNCTION = re.compile(r"fn (\w+)[^\n]*?\(.*?\n\s*\{\n(.*?)\n(?:    )?\}", re.S)


def found(pattern, flags=0):
    return [f"{n}: {m.group(0).strip().splitlines()[0]}" for n, s in SOURCES.items() for m in re.finditer(pattern, s, flags)]


def enums(test):
    rows = []
    for n, s in SOURCES.items():
        for m in re.finditer(r"enum (\w+)(?:<\w+>)? \{(.*?)\n\}", s, re.S):
            variants = re.findall(r"^    (\w+)(\(.*?\)|\s\{.*?\})?,", m.group(2), re.M | re.S)
            if test([v for v, held in variants if not held], [v for v, held in variants if held]):
                rows.append(f"{n}: enum {m.group(1)}")
    return rows


NONE = {"None", "Nothing", "Never", "Bad", "Unknown", "Ignored", "Other"}
PLACES = {
    "1 enums of one bare variant and one that carries": enums(lambda bare, full: len(bare) == 1 and len(full) == 1),
    "1 a none among the variants of a larger enum": enums(lambda bare, full: len(bare) + len(full) > 2 and NONE & set(bare)),
    "1 flags and refusal numbers beside values": found(r"^\s*(?:pub )?(?:good|accepted|refusal|live): (?:bool|u8),", re.M),
    "1 notices and refusals as u8 parameters or results": found(r"(?:notice|refusal): u8|fn \w*(?:refusal|unconnectable|unclearable|notice|not_n3|in_n12)\w*\(.*?-> u8", re.S),
    "1 digits with a number for none": found(r"fn (?:hex_)?digit\w*\(.*?\) -> u8|fn hex_pair\(.*?\) -> u16"),
    "2 types that differ only in what is read": found(r"enum (?:Cause|CallState|Connection|Bearer|Restart)Read|enum Look|struct Mandat\w+|struct Connection"),
    "2 functions that differ only in a function or a rule": found(r"fn (?:range|single)_fits|fn (?:ranges|pairs)_ascend|fn hex_digit|fn digit\(|fn same\(|fn (?:cause|call_state|connection|bearer|restart)\(m"),
    "3 loops that count an index": found(r"^\s*while [^\n]*<[^\n]*\{|^\s*while [^\n]*> 0[^\n]*\{|^\s*while 0 <[^\n]*\{", re.M),
    "4 equality and order by hand": found(r"fn (?:is_before|before|is_connection|same_due|same|is|is_none|by)\("),
    "5 VPCI and VCI as two parameters or fields": found(r"vpci: u16, vci: u16|\(u16, u16\)|usize, u16, u16|pub vpci: u16,\n\s*pub vci: u16"),
    "5 `reading ≤ largest_reading` asked by a function": found(r"(?:reading|last) ≤ largest_reading"),
    "5 a lent room with a place in it": found(r"fn \w+\((?:out|room): &mut \[u8\], at: usize"),
    "6 arrays with a count beside them": found(r"^\s*(?:pub )?(?:count|n|size): (?:usize|u8),", re.M),
    "7 tables of names, and steps chosen by a number": found(r"const \w+_NAMES"),
    "8 proof files of functions": names(r"crates/\w+/proofs/.*/(?:Answers|Invariants|Proof)\.antt"),
    "8 files of lemmas": names(r"crates/\w+/proofs/[A-Z]\w*\.antt"),
}

for point, rows in PLACES.items():
    print(f"{len(rows):5}  {point}")
    if "-l" in sys.argv:
        print("\n".join(f"         {row}" for row in rows))
