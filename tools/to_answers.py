#!/usr/bin/env python3
"""Turns proofs over `Tie` (Proof.antt) into Invariants.antt and Answers.antt, under the names that Rattle gives goals and steps now.

usage: python3 tools/to_answers.py CRATE_FOLDER NAMES_JSON

NAMES_JSON is what `rt check --generated DIR --old-names` writes. Answers that only say `search rules` are left out, since the check tries that itself.
A Proof.antt that is a walk by hand is left as it is. What it writes is a beginning: `rt check` decides.
"""

import json
import os
import re
import sys

WORD = r"(?<![\w'\-.])%s(?![\w'\-])"


# fields that the scripts leave where a path begins at a lemma
OLDER = {"inv": "invariant", "taken": "true", "left": "false"}


def plain(name):
    return name.replace("-", "_")


def step_key(name, steps):
    """The key of a step, also where the scripts gave it another spelling."""
    for key in (plain(name), re.sub(r"_(\d+)$", r"\1", plain(name)), re.sub(r"_lem$", "", plain(name))):
        if key in steps:
            return key
    return plain(name)


def chunks(text):
    """Top-level chunks of a file: (kind, name, lines)."""
    out = []
    pending = []
    current = None
    for line in text.split("\n"):
        if line.startswith("--"):
            pending.append(line)
            continue
        if not line.strip():
            if current is not None:
                current[2].append(line)
            elif pending:
                pending.append(line)
            continue
        if line[0] in " )]}":
            current[2].append(line)
            continue
        if line.startswith("use "):
            out.append(["use", "", pending + [line]])
            pending = []
            current = None
            continue
        m = re.match(r"((?:abbrev |unfoldable |pub )*)([^\s:(){}]+)\s*:(?=\s|$)", line)
        if m:
            current = ["decl", m.group(2), pending + [line]]
            pending = []
            out.append(current)
            continue
        head = line.split()[0]
        if current is not None and (head == "unfolding" or head == current[1]):
            current[2] += pending + [line]
            pending = []
            continue
        current = ["raw", head, pending + [line]]
        pending = []
        out.append(current)
    return out


def one_record(text):
    """A step further back that has a name of its own is read off the record at hand: its fields are there too."""
    while True:
        m = re.search(r"\blet (\w+'?) = (\w+'?)((?:\.before)+) in\b ?\n?\s*", text)
        if not m:
            return text
        end = re.compile(r"\n(?=\S)|\n\n|\Z").search(text, m.end()).start()
        block = text[m.end() : end]
        follows = r"(?=[.,);\]])" if m.group(1) == "at" else r"(?=[\s.,);\]]|$)"
        block = re.sub(r"(?<![\w'\-.])" + m.group(1) + follows, m.group(2) + m.group(3), block)
        text = text[: m.start()] + block + text[end:]


def atom(text, at):
    """The end of the argument that begins at a place, or None."""
    if at >= len(text) or text[at] in ")],;\n=":
        return None
    if text[at] in "([":
        depth = 0
        for i in range(at, len(text)):
            depth += text[i] in "(["
            depth -= text[i] in ")]"
            if depth == 0:
                m = re.compile(r"(?:\.[\w'\-]+)*").match(text, i + 1)
                return m.end()
        return None
    m = re.compile(r"[\w'₀-₉_\-]+(?:\.[\w'\-]+)*").match(text, at)
    return m.end() if m and m.group() not in ("in", "let", "where") else None


def inlined(text):
    """A lemma over the record of one place stands where it is used, since the goals' records differ."""
    while True:
        m = re.search(r"^([\w'\-]+) : ((?:\(\w+(?: \w+)* : [^\n]*?\) )*?)\(c : tie\.[A-MO-Z][^()\n]*\)((?:[^\n]|\n +)*)\n(?:unfolding [^\n]*\n)?\1((?: [\w'₀-₉_]+)+) =((?:[^\n]|\n +(?! *where))*)\n", text, re.M)
        if not m or "where" in m.group(5).split():
            return text
        name, params, rhs = m.group(1), m.group(4).split(), " ".join(m.group(5).split())
        says = " ".join(m.group(3).split())
        if re.match(r"(?:search|omega|rw|simp|grind|let|cc|record|\()", rhs) and says.startswith("→ ") and not re.search(r"→|\(\w+ :", says[2:].split(" in ")[-1]):
            rhs = f"let it : {says[2:]} = {rhs} in it"
        text = text[: m.start()] + text[m.end() :]
        out, at = "", 0
        for k in re.finditer(r"(?<![\w'\-.])" + re.escape(name) + r"(?![\w'\-])", text):
            if k.start() < at:
                continue
            ends, args = k.end(), []
            while len(args) < len(params) and ends < len(text) and text[ends] == " ":
                e = atom(text, ends + 1)
                if e is None:
                    break
                args.append(text[ends + 1 : e])
                ends = e
            if not args:
                continue
            body = rhs
            for q, v in zip(params, args):
                if q != "_":
                    body = re.sub(r"(?<![\w'\-.])" + re.escape(q) + r"(?![\w'₀-₉\-])", lambda _: v, body)
            rest = params[len(args) :]
            body = f"(λ {' '.join(rest)}. {body})" if rest else f"({body})"
            out += text[at : k.start()] + body
            at = ends
        text = out + text[at:]


def convert(path, fn, crate, info, crate_folder):
    text = open(path).read()
    if "Tie as tie" not in text:
        return "no tie"
    parts = chunks(text)
    comment = [l for l in parts[0][2] if l.startswith("--")] if parts else []
    needs = {plain(a): b for a, b in info["needs"]}
    places, steps, fields, arms, callees = {}, {}, {}, {}, {}
    args = {a.split(".")[-1]: b.split(".")[-1] for a, b in info["args"] if a.startswith((".args", ".ranges"))}
    for entry in info["arms"]:
        if entry:
            for new, step, old in entry[2]:
                arms[(plain(step), tuple(old))] = (entry[0], new)
    for old, _, step, callee, renamed in info["places"]:
        new = next(n for n, p in zip(info["places_by_name"], info["places"]) if p[0] == old)
        places[plain(old)] = new
        if step and step[0]:
            steps.setdefault(plain(step[0]), step[1])
            callees.setdefault(plain(step[0]), callee)
            for a, b in renamed or []:
                fields.setdefault(plain(step[0]), {})[a] = b
    loops = {plain(l[0][0]): (l[0][1], l[1], changed) for l, changed in zip(info["loops"], info["changed"])}

    def paths(s):
        heads = {"c"} | set(re.findall(r"\((\w+) : tie\.", s))
        for m in re.finditer(r"\blet (\w+) = (\w+)(?:\.before)*(?=\s)", s):
            if m.group(2) in heads:
                heads.add(m.group(1))

        passed = set(re.findall(r"\blet (\w+) = \w+(?:\.before)*\.args(?=\s)", s))

        def one(m):
            head, rest = m.group(1), m.group(2).split(".")[1:]
            if head in passed and rest[0] in args:
                rest[0] = args[rest[0]]
                return head + "." + ".".join(rest)
            if head not in heads:
                return m.group()
            n = 0
            while n < len(rest) and rest[n] == "before":
                n += 1
            if n < len(rest):
                rest = rest[n:]
                if rest[0] == "pre":
                    rest[0] = "requires"
                if rest[0] in ("args", "ranges") and len(rest) > 1 and rest[1] in args:
                    rest[1] = args[rest[1]]
                old = step_key(rest[0], steps)
                for k in range(len(rest), 1, -1):
                    if (old, tuple(rest[1:k])) in arms:
                        return head + "." + ".".join([*arms[(old, tuple(rest[1:k]))], *rest[k:]])
                if old in steps:
                    params = info["params"].get(callees[old], [])
                    if len(rest) > 2 and rest[1] in ("new", "auto") and rest[2].isdigit() and int(rest[2]) < len(params):
                        rest[2] = params[int(rest[2])]
                    if len(rest) > 1 and rest[1] in fields.get(old, {}):
                        rest[1] = fields[old][rest[1]]
                    rest[0] = steps[old]
                    if len(rest) > 1 and rest[1] in OLDER:
                        rest[1] = OLDER[rest[1]]
                    if old.startswith("wrapping_") and rest[1:] == ["ensures"]:
                        rest.append("value")
            return head + "." + ".".join("type_inv" if r == "type-inv" else r for r in rest)

        s = re.sub(r"(?<![\w'\-.])([a-z]\w*'?)((?:\.[\w'\-·]+)+)", one, s)
        s = re.sub(r"\btie\.([A-Z][\w\-]*)", lambda m: "goal." + places.get(plain(m.group(1)), m.group(1)), s)
        return s

    # an import of the repository's own that was taken for a name of Rattle's making
    own = set()
    for m in re.finditer(r"^use Rattle\.(\w+)[\w.+]*\.\{([^}]*)\}", text, re.M):
        if os.path.isdir(os.path.join(os.path.dirname(os.path.abspath(crate_folder)), m.group(1))):
            own |= {i.strip() for i in m.group(2).split(",") if "-" in i}
    for n in own:
        text = re.sub(r"(?<![\w'\-])" + re.escape(n) + r"(?![\w'\-])", plain(n), text)
    text = one_record(text)
    text = inlined(text)
    parts = chunks(text)
    uses, invariants, helpers, answers = [], [], [], []
    renames = {}
    invs = []
    for kind, name, lines in parts:
        if kind == "use":
            l = lines[-1]
            if re.search(r"\.Statement\.\{statement\}|\.Tie as tie", l):
                continue
            uses.append(l)
            continue
        body = "\n".join(lines)
        sig = re.search(r":\s*tie\.(Need-[\w\-]+|invariant-[\w\-]+|decreases-[\w\-]+)", body)
        if kind == "decl" and sig:
            what = sig.group(1)
            if what.startswith("Need-"):
                raw = plain(what[5:])
                new = needs.get(raw)
                if new is None:
                    for word in ("overflow_", "slice_bounds_", "bounds_", "nonzero_"):
                        if raw.startswith(word) and raw[len(word):] in needs:
                            new = needs[raw[len(word):]]
                if new is None:
                    for a in needs:
                        if raw.endswith(a) or plain(needs[a]) == raw:
                            new = needs[a]
                            break
                if new is None:
                    cand = plain(name)
                    new = needs.get(cand)
                answers.append((name, new or "UNKNOWN-" + what, body))
                if new:
                    renames[name] = new
            else:
                invs.append((name, what, body))
                renames[name] = None
            continue
        if kind == "decl" and re.search(r":.*statement M|tie\.close", body):
            continue
        helpers.append(body)

    def cleaned(s):
        for name, _, _ in invs:
            s = re.sub(r"(?<=[\w\-]) " + re.escape(name) + r"(?![\w'\-])", "", s)
        return s

    out_inv = []
    for name, what, body in invs:
        base, loop = what.split("-", 1)
        if plain(loop) in loops:
            new_loop, vs, changed = loops[plain(loop)]
        else:
            new_loop, vs, changed = loop, [], []
        lines = body.split("\n")
        text_def = "\n".join(l for l in lines if not l.startswith("--"))
        m = re.search(r"^" + re.escape(name) + r"((?: +[^\s=:]+)*)\s*=\s*(.*)\Z", text_def, re.S | re.M)
        if not m:
            out_inv.append(body)
            continue
        params, rhs = m.group(1).split(), m.group(2).rstrip()
        names = {}
        now = [v for v, c in zip(vs, changed) if c]
        for i, p in enumerate(params):
            if i < len(vs):
                names[p] = ("l.initial." if changed[i] else "l.") + vs[i]
            elif i - len(vs) < len(now):
                names[p] = "l." + now[i - len(vs)]
        for p in sorted(names, key=len, reverse=True):
            if p != "_":
                rhs = re.sub((WORD % re.escape(p)) + r"(?! =)", lambda _: names[p], rhs)
        unf = re.search(r"^unfolding .*$", text_def, re.M)
        c = [l for l in lines if l.startswith("--")]
        new = f"{base}-{new_loop}"
        out_inv.append("\n".join(c + [f"abbrev pub {new} : goal.{new}"] + ([unf.group()] if unf else []) + [f"{new} l = {rhs}"]))

    def finish(s):
        s = cleaned(s)
        for a, b in renames.items():
            if b:
                s = re.sub(WORD % re.escape(a), b, s)
        return paths(s)

    out_ans = [finish(h).rstrip() for h in helpers]
    written = 0
    for name, new, body in answers:
        lines = body.split("\n")
        c = [l for l in lines if l.startswith("--")]
        rest = "\n".join(l for l in lines if not l.startswith("--")).rstrip()
        m = re.search(r"^" + re.escape(name) + r"((?: +[^\s=:]+)*)\s*=\s*(.*)\Z", rest, re.S | re.M)
        if m and m.group(2).strip() in ("search rules", "search (rules)") and "unfolding" not in rest:
            continue
        unf = re.search(r"^unfolding .*$", rest, re.M)
        params = [p for p in m.group(1).split() if p != "κs"] if m else ["c"]
        rhs = finish(m.group(2)) if m else "?"
        written += 1
        out_ans.append("\n".join(c + [f"pub {new} : goal.{new}"] + ([unf.group()] if unf else []) + [f"{new} {' '.join(params)} = {rhs}".rstrip()]))
    folder = os.path.dirname(path)
    where = f"Rattle.{crate}.proofs.{fn}"
    head = "\n".join(comment)
    if out_inv:
        with open(os.path.join(folder, "Invariants.antt"), "w") as f:
            f.write(head + "\n" + "\n".join(uses) + f"\nuse {where}.Given as goal\n\n" + "\n\n".join(out_inv) + "\n")
    if written:
        with open(os.path.join(folder, "Answers.antt"), "w") as f:
            f.write(head + "\n" + "\n".join(uses) + f"\nuse {where}.Goals as goal\n\n" + "\n\n".join(out_ans) + "\n")
    os.remove(path)
    return f"{len(invs)} invariants and measures, {written} of {len(answers)} answers" + ("".join(" UNKNOWN " + b for _, n, b in answers if n.startswith("UNKNOWN"))[:200])


def main(folder, names):
    crate = os.path.basename(os.path.abspath(folder))
    d = json.load(open(names))
    for where, _, files in sorted(os.walk(os.path.join(folder, "proofs"))):
        if "Proof.antt" in files:
            fn = os.path.relpath(where, os.path.join(folder, "proofs")).replace("/", ".")
            info = d.get(f"Rattle-{crate}-proofs.{fn}.Lts")
            said = convert(os.path.join(where, "Proof.antt"), fn, crate, info, folder) if info else "not named"
            print(f"{crate}::{fn}: {said}")


if __name__ == "__main__":
    main(*sys.argv[1:3])
