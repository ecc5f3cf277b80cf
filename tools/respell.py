#!/usr/bin/env python3
"""Respells the names of this repository's definitions, lemmas, fields and import aliases as today's Rattle spells them.

usage: tools/respell.py [--report]      at the top of the repository, once, after the kit's own port.py and before its output is committed

A definition, a field or an alias is in snake case (`callState` is `call_state`). A dash stays in a lemma's name only between two names
of definitions or of the library's words; a plain word is added by an underscore (`lower-chain` is `lower_chain`). Types, facts and
variants keep their capitals. Names that would fall together stand in FIXED with a name of their own; what still falls together is
reported, and then nothing is written. Functions of src/, strings, inputs and outputs are left alone: of an .rt file only clauses,
`ghost use` lines and comments are read. Wrong programs and pages get the names too, also those that the kit's script gave: what a
name was is read from the last commit.
"""
import glob
import re
import subprocess
import sys

WORDS = set("length take drop set sets map append replicate get_or reverse filter fold cond front".split())
# Names that would fall together with another, and what they are called instead.
FIXED = {
    "inN6": "when_n6", "inN6or9": "when_n6_or_n9", "inN10": "when_n10", "inN12": "when_n12", "notN3": "unless_n3",
    "any-other": "any_other_acknowledge", "fired-request": "request_fired", "fired-slot": "slot_fired", "has-pair": "pair_named",
    "out-of-service": "none_out_of_service", "under-restart": "none_under_restart", "putting-back": "puts_marks_back",
    "second-expiry": "second_t316_expiry", "is-message": "its_message", "is-put-back": "is_put_back_command",
    "is-restart": "is_restart_command", "put-back": "put_marks_back",
    "length-told": "length_told", "getD-replicate-default": "get_or-replicate_default", "hold-due": "hold_due_lem", "no-pair": "no_pair_lem", "no-slot": "no_slot_lem", "or-record": "or_record_lem",
    "out-after": "out_after_lem", "pairs-kept": "pairs_kept_lem", "restart-class": "restart_class_lem", "state-due": "state_due_lem",
}
# English in comments, and no names there.
PLAIN = {"thirty-two", "out-of-service", "put-back"}
# Lemmas that the kit's script gave the name that a definition gets here.
LEMMAS = {
    "crates/roundtrip/proofs/": ["call_kept"],
    "crates/safety/proofs/Reloaded.antt": ["call_kept"],
    "crates/history/proofs/": ["held_by", "held_in"],
    "crates/safety/proofs/Restarts.antt": ["is_same"],
}
NAME = re.compile(r"(?<![\w'\-·⊎≡])[A-Za-z][\w'\-]*(?<!-)")
DECLARED = re.compile(r"^(\s*)((?:pub |abbrev |unfoldable )*)([^\s(){}]+) : ")
PROSE = ["README.md", "CONTRIBUTING.md"] + sorted(glob.glob("docs/**/*.md", recursive=True)) + ["harness/README.md"]


def antt_files():
    return sorted(p for d in ("specs", "proofs") for p in glob.glob(f"crates/*/{d}/**/*.antt", recursive=True))


def edits():
    return sorted(glob.glob("crates/*/must-fail/*.edit") + glob.glob("harness/wrong/*/*.edit"))


def text_of(path):
    with open(path, encoding="utf-8") as f:
        text = f.read()
    for where, lemmas in LEMMAS.items():
        if path.startswith(where):
            for lemma in lemmas:
                text = re.sub(rf"(?<![\w'.-]){lemma}(?![\w'-])", lemma + "_lem", text)
    return text


def crates():
    return {p.split("/")[1] for p in glob.glob("crates/*/src")}


def own_modules(text):
    """The text's names that are imported from elsewhere than this repository."""
    foreign = set()
    for module, names in re.findall(r"use ([^\s;{]+?)\.\{([^}]*)\}", text):
        parts = module.split(".")
        if not (parts[0] == "Rattle" and len(parts) > 1 and parts[1] in crates()):
            for n in names.split(","):
                foreign.add(n.split(" as ")[-1].strip())
    return foreign


def snake(name):
    name = re.sub(r"(?<=[a-z0-9])([A-Z])(?=[a-z])", lambda m: "_" + m.group(1).lower(), name)
    return re.sub(r"(?<=[a-z])([A-Z]+\d+|[A-Z])", lambda m: "_" + m.group(1).lower(), name)


def respelled(name, functions):
    if name in FIXED:
        return FIXED[name]
    if name.endswith("-spec"):
        return name.replace("-", "_")
    parts = name.split("-")
    if len(parts) == 1:
        return name if name[0].isupper() else snake(name)
    new = [p if p[0].isupper() else snake(p) for p in parts]
    if re.fullmatch(r"P\d", new[0]):
        new[0] = new[0].lower()
    out = new[0]
    for a, b, x, y in zip(parts, parts[1:], new, new[1:]):
        both = (a in functions or x in WORDS) and (b in functions or y in WORDS)
        out += ("-" if both else "_") + y
    return out


def declared():
    """Own names: functions (of specs/), everything declared, and record fields."""
    functions, names, fields = set(), set(), set()
    for path in antt_files():
        by_hand = path.endswith("/Proof.antt")
        for line in text_of(path).splitlines():
            for alias in re.findall(r"^use [^\s]+ as (\w+)$", line) + re.findall(r" as (\w+)[,}]", line if line.startswith("use ") else ""):
                names.add(alias)
            m = DECLARED.match(line)
            if not m or (by_hand and not m.group(2).strip()):
                continue
            name = m.group(3)
            if name.endswith("_spec"):
                continue
            names.add(name)
            if m.group(1) and "abbrev" not in m.group(2):
                fields.add(name)
            elif "/specs/" in path:
                functions.add(name)
    return functions, names, fields


def before():
    """The names that were declared in the last commit."""
    said = subprocess.run(["git", "grep", "-hE", r"^ *(pub |abbrev |unfoldable )*[^ (){}]+ : ", "HEAD", "--", "crates/*/specs/*", "crates/*/proofs/*"], capture_output=True, text=True).stdout
    return {m.group(3) for m in map(DECLARED.match, said.splitlines()) if m}


def tight(line):
    """Projections, paths and words of a line of a definition as today's."""
    line = re.sub(r"Rattle·(\w+)·(?:specs|proofs)\.", r"Rattle.\1.", line).replace("Rattle·", "Rattle.")
    line = re.sub(r"\((\w+(?: \w+)+) ((?:\.\w+ ?)+)\)", lambda m: f"({m.group(1)})" + m.group(2).replace(" ", ""), line)
    after = None
    while after != line:
        after, line = line, re.sub(r"(?<=[ (])(\w+(?:\.\w+)*) \.(\w+)", r"\1.\2", line)
        line = re.sub(r"\((\w+(?:\.\w+)+)\)", r"\1", line)
    return re.sub(r"\bgetD\b", "get_or", line)


def turn(text, names, foreign, fields):
    def one(m):
        name = m.group(0)
        if name not in names or name in foreign:
            return name
        if m.start() and text[m.start() - 1] == "." and "-" in name and name not in fields:
            return name
        return names[name]

    return NAME.sub(one, text)


def turn_rt(text, names, foreign, fields):
    """Clauses, `ghost use` lines and comment lines alone."""
    out, clause, depth = [], False, 0
    for line in text.splitlines(keepends=True):
        bare = line.strip()
        if not clause and re.match(r"(requires|ensures|ghost)\*? *\w* *\{", bare):
            clause, depth = True, 0
        if clause:
            depth += line.count("{") - line.count("}")
            out.append(turn(line, names, foreign, fields))
            clause = depth > 0
        elif bare.startswith(("//", "ghost use ")):
            out.append(turn(line, names, foreign | PLAIN, fields))
        else:
            out.append(line)
    return "".join(out)


def turn_edit(text, names, fields):
    """Of a wrong program in a definition the lines of it; of any, what is said of it between backticks."""
    definition = re.search(r"^file: .*\.antt$", text, re.M)
    out = []
    for line in text.splitlines(keepends=True):
        if line.startswith(("old:", "new:")):
            out.append(tight(turn(line, names, set(), fields)) if definition else line)
        else:
            out.append(line if line.startswith("file:") else turn_prose(line, names, fields))
    return "".join(out)


def turn_prose(text, names, fields):
    """What stands between backticks."""
    return re.sub(r"`[^`\n]+`", lambda m: turn(m.group(0), names, set(), fields) if "::" not in m.group(0) else m.group(0), text)


def main(argv):
    functions, names, fields = declared()
    new = {n: respelled(n, functions) for n in sorted(names)}
    new = {a: b for a, b in new.items() if a != b}
    for n in [n for n in new if n in fields and "-" in n]:
        new[n] = FIXED.get(n, new[n].replace("-", "_"))
    for n in new:
        if "-" in n and n not in fields and n not in FIXED and any(new.get(m) == new[n] for m in new if m != n) | (new[n] in names):
            new[n] += "_lem"
    together = set()
    backwards = {}
    for a, b in new.items():
        backwards.setdefault(b.lower(), set()).add(a)
    for b, from_ in backwards.items():
        if len(from_) > 1:
            together.add((b, "two become one: " + " ".join(sorted(from_)), "everywhere"))
    for path in antt_files():
        if path.endswith("/Proof.antt"):
            continue
        text = re.sub(r"--.*", "", text_of(path))
        text = re.sub(r"Rattle\.[\w.']+", "", text)
        foreign = own_modules(text_of(path))
        here = set(NAME.findall(text))
        for n in here - foreign:
            if n in new and new[n] in here:
                together.add((new[n], "stands beside " + n, path))
    for row in sorted(together):
        print("falls together:", *row, sep="  ")
    if "--report" in argv:
        for a, b in new.items():
            print(a, b)
        return 0
    if together:
        return 1
    said = dict(new)
    now = set(new.values()) | names
    for n in before():
        if n not in said and n not in names and respelled(n, functions) in now:
            said[n] = respelled(n, functions)
    for path in antt_files():
        text = text_of(path)
        parts = re.split(r"(--.*)", text)
        parts[::2] = [turn(code, new, own_modules(text), fields) for code in parts[::2]]
        parts[1::2] = [turn(turn(comment, new, own_modules(text) | PLAIN, fields), said, PLAIN, set()) for comment in parts[1::2]]
        after = "".join(parts)
        if after != text:
            with open(path, "w", encoding="utf-8") as f:
                f.write(after)
    for path in sorted(glob.glob("crates/*/src/**/*.rt", recursive=True)):
        text = text_of(path)
        after = turn_rt(text, new, own_modules(text), fields)
        if after != text:
            with open(path, "w", encoding="utf-8") as f:
                f.write(after)
    for path in edits() + PROSE:
        text = text_of(path)
        after = (turn_edit if path.endswith(".edit") else turn_prose)(text, said, fields)
        if after != text:
            with open(path, "w", encoding="utf-8") as f:
                f.write(after)
    print(f"{len(new)} names respelled")
    return 0


if __name__ == "__main__":
    raise SystemExit(main(sys.argv[1:]))
