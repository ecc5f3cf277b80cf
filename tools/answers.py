#!/usr/bin/env python3
"""Turns a crate's proofs by hand (proofs/F/Proof.antt) into invariants and answers (proofs/F/Invariants.antt, Answers.antt).

usage: tools/answers.py CRATE NAMES       NAMES is the names.json of `rt check --generated DIR --old-names` in the crate's folder

An answer that is only a search is left out, and so is one whose steps have no name today: the check says which goals are open.
It is a first draft: `rt check` decides.
"""
import glob
import json
import os
import re
import sys

WORD = r"[A-Za-z_\u0370-\u03ff₀-₉'][\w'\-₀-₉]*"


def norm(name):
    return name.replace("_", "-")


def clauses():
    """The names of each function's `ensures`, by its path in its crate."""
    found = {}
    for path in glob.glob("crates/*/src/**/*.rt", recursive=True):
        crate = path.split("/")[1]
        module = os.path.relpath(path, f"crates/{crate}/src")[:-3]
        prefix = [crate] + ([] if module in ("lib", "main") else module.split("/"))
        impl = None
        name = None
        for line in open(path, encoding="utf-8"):
            m = re.match(r"impl (\w+)", line)
            if m:
                impl = m.group(1)
            elif line.startswith("}"):
                impl = None
            m = re.match(r"\s*(?:pub(?:\(crate\))? )?(?:extern \"C\" )?fn (\w+)", line)
            if m:
                name = "::".join(prefix + ([impl] if impl and line.startswith(" ") else []) + [m.group(1)])
                found[name] = {"ensures": [], "requires": []}
            m = re.match(r"\s+(ensures|requires) (\w*) ?\{", line)
            if m and name:
                found[name][m.group(1)].append(m.group(2))
    return found


def declarations(text):
    """The text's head of comments and imports, and its declarations: each a name, its signature and its clauses."""
    head, decls, block = [], [], []
    for line in text.splitlines():
        if re.match(r"(--|use )", line) and not block and not decls:
            head.append(line)
            continue
        if line and not line[0].isspace():
            m = re.match(r"(?:abbrev )?(?:pub )?(\S+) :", line)
            if m and not (block and False):
                if block:
                    decls.append(block)
                block = [line]
                continue
        block.append(line)
    if block:
        decls.append(block)
    out = []
    for b in decls:
        while b and not b[-1].strip():
            b.pop()
        if not b:
            continue
        m = re.match(r"((?:abbrev )?(?:pub )?)(\S+) :", b[0])
        out.append((m.group(2) if m else None, b))
    return head, out


def inline(text):
    """Without the `let`s that only name a step."""
    while True:
        m = re.search(r"let (\w+) = (c(?:\.[\w\-']+)*) in\s*", text)
        if not m:
            return text
        rest = text[m.end():]

        def one(n):
            field = re.match(r"\s*=", rest[n.end():]) and re.search(r"([{;]|let)\s*$", rest[: n.start()])
            return n.group(0) if field else m.group(2)

        text = text[: m.start()] + re.sub(rf"(?<![\w'.\-]){m.group(1)}(?![\w'\-])", one, rest)


def by_name(body, names):
    """The tuple at the end of an answer as a record of these names."""
    end = body.rstrip()
    if not end.endswith(")"):
        return None
    depth, start = 0, None
    for i in range(len(end) - 1, -1, -1):
        depth += (end[i] in ")}]") - (end[i] in "({[")
        if depth == 0:
            start = i
            break
    parts, depth, part = [], 0, ""
    for ch in end[start + 1 : -1]:
        depth += (ch in "({[") - (ch in ")}]")
        if ch == "," and depth == 0:
            parts.append(part.strip())
            part = ""
        else:
            part += ch
    if part.strip():
        parts.append(part.strip())
    if len(parts) != len(names):
        return None
    fields = "; ".join(f"{n} = {p}" for n, p in zip(names, parts))
    bare = not end[:start].strip() or re.search(r"\bin\s*$", end[:start])
    return end[:start] + (f"record {{ {fields} }}" if bare else f"(record {{ {fields} }})")


class Unnamed(Exception):
    pass


def chain(places, place):
    """The steps of a place and of those before it, from the place up: the old name, the new one and the callee."""
    by = {p[0]: p for p in places}
    steps = []
    while place:
        p = by[place]
        steps.append((p[2][0], p[2][1], p[3]))
        place = p[1]
    return steps


def renamed(path, steps, args, ensured):
    parts = path.split(".")[1:]
    while parts and parts[0] == "before":
        parts.pop(0)
    if not parts:
        raise Unnamed(path)
    step, rest = parts[0], parts[1:]
    if step in ("args", "ranges"):
        rest[:1] = [args.get(r, r) for r in rest[:1]]
        return ".".join(["c", step] + rest)
    if step == "requires":
        own = ensured.get(steps[-1], {}).get("requires", [])
        if len(own) > 1 and rest and rest[0].isdigit():
            rest[0] = own[int(rest[0])]
        return ".".join(["c", step] + rest)
    if step in ("well-formed", "good", "told", "fits"):
        raise Unnamed(path)
    for i, (old, new, callee) in enumerate(steps[:-1]):
        if norm(old) == norm(step):
            if rest[:2] in (["given", "1"], ["given"]) and new.endswith("-1"):
                arms = [s[1] for s in steps[i:-1] if s[1].startswith("in-")]
                if arms:
                    return ".".join(["c", arms[0], "is"])
            if rest and rest[0] == "ensures" and callee in ensured:
                names = ensured[callee]["ensures"]
                if len(names) > 1 and len(rest) > 1 and rest[1].isdigit():
                    rest[1] = names[int(rest[1])]
            if rest and rest[0] == "given":
                rest = ["is"] if rest[1:2] == ["1"] else ["given"] + rest[1:]
            return ".".join(["c", new] + rest)
    raise Unnamed(path)


def turn(folder, data, crate, ensured):
    where = os.path.join("crates", crate, "proofs", folder)
    text = open(os.path.join(where, "Proof.antt"), encoding="utf-8").read()
    head, decls = declarations(text)
    comments = [h for h in head if h.startswith("--")]
    uses = [h for h in head if h.startswith("use ") and not re.search(r"\.(Statement|Tie)\b", h)]
    dotted = folder.replace("/", ".")
    args = {}
    for a, b in data["args"]:
        if a.startswith(".args ."):
            args[a[7:]] = b[7:]
    needs = data["needs"]
    order = [n for n, b in decls if n and re.search(r"tie\.Need", b[0])]
    positional = len(order) == len(needs)
    asked_at = data["asked_at"]
    invariants, answers, helpers, missing = [], [], [], []
    loops = {norm(l[0][0]): (l, ch) for l, ch in zip(data["loops"], data["changed"])}
    for name, block in decls:
        if name is None:
            continue
        sig = block[0]
        if name.endswith("_spec") or name.endswith("-spec"):
            continue
        m = re.search(r"tie\.(invariant|decreases|InvT|MeasureT)", sig)
        if m:
            kind = "invariant" if m.group(1) in ("invariant", "InvT") else "decreases"
            label = norm(re.sub(r"^(invariant|decreases|Inv|μ)[-_]", "", name))
            if label not in loops:
                missing.append(name)
                continue
            (old, new), names = loops[label][0]
            changed = loops[label][1]
            body = "\n".join(block[1:])
            m = re.match(rf"{re.escape(name)}((?: \S+)*) =\s*", body)
            params = m.group(1).split()
            body = body[m.end():]
            values = ["l.initial." + n if ch else "l." + n for n, ch in zip(names, changed)] + ["l." + n for n, ch in zip(names, changed) if ch]
            if len(params) != len(values):
                missing.append(f"{name}: {params} for {values}")
            for p, v in zip(params, values):
                if p != "_":
                    body = re.sub(rf"(?<![\w'.\-]){re.escape(p)}(?![\w'\-₀-₉])", "\0" + v, body)
            body = body.replace("\0", "")
            invariants.append(f"abbrev pub {kind}-{new} : goal.{kind}-{new}\n{kind}-{new} l = {body}")
            continue
        m = re.search(r"tie\.Need-(\S+)", sig)
        if not m:
            helpers.append("\n".join(block))
            continue
        if positional:
            k = order.index(name)
        else:
            ks = [k for k, n in enumerate(needs) if norm(n[0]) in (norm(name), norm(m.group(1)))]
            if not ks:
                missing.append(name)
                continue
            k = ks[0]
        new = needs[k][1]
        body = "\n".join(block[1:])
        m = re.match(rf"{re.escape(name)} c(?: κs)? =\s*", body)
        if not m:
            missing.append(name)
            continue
        body = body[m.end():]
        if re.fullmatch(r"search (rules|needs)", body.strip()):
            continue
        body = inline(body)
        steps = chain(data["places"], asked_at[k][0]) + ["::".join([crate] + folder.split("/"))]
        try:
            body = re.sub(r"(?<![\w'.\-])c((?:\.[\w\-']+)+)", lambda m: renamed(m.group(0), steps, args, ensured), body)
        except Unnamed as e:
            missing.append(f"{new}: {e}")
            continue
        own = ensured.get("::".join([crate] + folder.split("/")), {}).get("ensures", [])
        asked = data["asked"].get(new) or (own if new.startswith("returns") and len(own) > 1 else None)
        if asked:
            record = by_name(body, asked)
            if record is None:
                missing.append(f"{new}: not a tuple of {asked}")
            else:
                body = record
        answers.append(f"pub {new} : goal.{new}\n{new} c = {body}")
    for f in ("Invariants.antt", "Answers.antt"):
        if os.path.exists(os.path.join(where, f)):
            os.remove(os.path.join(where, f))
    if invariants:
        with open(os.path.join(where, "Invariants.antt"), "w", encoding="utf-8") as f:
            f.write("\n".join(comments + uses + [f"use Rattle.{crate}.proofs.{dotted}.Given as goal", ""]) + "\n" + "\n\n".join(invariants) + "\n")
    if answers:
        with open(os.path.join(where, "Answers.antt"), "w", encoding="utf-8") as f:
            f.write("\n".join((comments if not invariants else comments[:1]) + uses + [f"use Rattle.{crate}.proofs.{dotted}.Goals as goal", ""]) + "\n" + "\n\n".join(helpers + answers) + "\n")
    os.remove(os.path.join(where, "Proof.antt"))
    if not os.listdir(where):
        os.rmdir(where)
    for m in missing:
        print(f"{crate}/{folder}: {m}")


def main(argv):
    crate, names = argv
    data = json.load(open(names, encoding="utf-8"))
    ensured = clauses()
    for key, value in sorted(data.items()):
        m = re.match(rf"Rattle-{crate}-proofs\.(.*)\.Lts$", key)
        if m and os.path.exists(f"crates/{crate}/proofs/{m.group(1).replace('.', '/')}/Proof.antt"):
            turn(m.group(1).replace(".", "/"), value, crate, ensured)


if __name__ == "__main__":
    main(sys.argv[1:])
