#!/usr/bin/env python3
"""Turns proofs by `tie.close (tie.spec ..)` into Invariants.antt and Answers.antt.

usage: turn_proofs.py CRATE NAMES [FUNCTION..]

In the repository, with the folder of the old proofs, OLD/CRATE/F/Proof.antt, in the environment as OLD. CRATE is a crate of
crates/, NAMES the file names.json that `rt check --generated DIR --old-names` writes in its folder once no Proof.antt is
there. It writes proofs/F/Invariants.antt and Answers.antt with every answer that is more than a call of `search rules`.
What it cannot turn stays as it was, behind XX, for the hand.
"""
import json
import os
import re
import sys

WORD = r"[^\s(){}\[\],;«»]+"
TRIVIAL = {"search rules", "tt", "lit< tt", "search needs"}


def norm(n):
    n = re.sub(r"_lem$", "", n)
    return re.sub(r"-(\d+)$", r"\1", n.replace("_", "-")).lower()


def split_decls(text):
    """Returns the head (comments and use lines) and the declarations, each a list of lines."""
    lines = text.split("\n")
    head, decls, cur, seen = [], [], None, False
    pending = []
    for line in lines:
        if not seen and (line.startswith("use ") or line.startswith("--") or not line.strip() or (head and head[-1].startswith("use ") and line.startswith(" "))):
            head.append(line)
            continue
        seen = True
        if line.startswith("--"):
            pending.append(line)
        elif not line.strip():
            continue
        elif line[0] not in " \t)]}":
            m = re.match(r"(?:(?:abbrev|unfoldable|pub|private) )*(\S+)", line)
            name = m.group(1)
            if line.startswith("unfolding") or line.startswith("infix") or (cur and cur["name"] == name and not re.match(r"^(?:(?:abbrev|unfoldable|pub|private) )*\S+ :( |$)", line)):
                cur["lines"].append(line)
            else:
                cur = {"name": name, "lines": [line], "notes": pending}
                pending = []
                decls.append(cur)
        else:
            cur["lines"].append(line)
    return head, decls


opened, used = {}, set()


def contracts():
    """The names of each function's clauses, from the sources: path -> (requires, ensures)."""
    out = {}
    for folder, dirs, files in os.walk("crates"):
        dirs[:] = [d for d in dirs if d != "out"]
        for f in files:
            if not f.endswith(".rt"):
                continue
            rel = os.path.join(folder, f).split("/")[1:]
            crate, mods = rel[0], rel[2:]
            mods[-1] = mods[-1][:-3]
            if mods[-1] in ("lib", "main", "mod"):
                mods = mods[:-1]
            impl, name = None, None
            for line in open(os.path.join(folder, f), encoding="utf-8"):
                m = re.match(r"impl(?:<[^>]*>)? (\w+)", line)
                if m:
                    impl = m.group(1)
                if line.startswith("}"):
                    impl = None
                m = re.match(r"\s*(?:pub(?:\([a-z]+\))? )?(?:unsafe )?(?:extern \"C\" )?fn (\w+)", line)
                if m:
                    name = "::".join([crate] + mods + ([impl] if impl else []) + [m.group(1)])
                    out[name] = ([], [])
                m = re.match(r"\s+(requires|ensures) (?:(\w+) )?\{", line)
                if m and name:
                    out[name][m.group(1) == "ensures"].append(m.group(2))
    return out


CONTRACTS = {}


def clause(names, digits):
    """Turns a path of digits into nested pairs into a clause's name and what is left."""
    if not names or names == [None]:
        return digits
    if len(names) == 1:
        return [names[0]] + digits
    if not digits or not digits[0].isdigit():
        return digits
    if int(digits[0]) > 1:
        return [names[int(digits[0])]] + digits[1:] if int(digits[0]) < len(names) else digits
    j, left = 0, list(digits)
    while j < len(names) - 1 and left and left[0] == "1":
        j, left = j + 1, left[1:]
    if j < len(names) - 1:
        if not left or left[0] != "0":
            return digits
        left = left[1:]
    return [names[j]] + left


def tupled(path, names):
    """A record of clauses as the nested pairs that it was."""
    if not names or len(names) < 2 or names[0] is None:
        return path
    out = f"{path}.{names[-1]}"
    for n in reversed(names[:-1]):
        out = f"({path}.{n}, {out})"
    return out


def names_of(fn, path):
    """The clauses behind a path such as c.requires, c.f.ensures or c.in-V.ensures."""
    if path == "c.requires":
        return CONTRACTS.get(fn.own, ([], []))[0]
    if not path.endswith(".ensures") or path.count(".") != 2:
        return []
    step = path.split(".")[1]
    for place, (old, new) in fn.field.items():
        if new == step and fn.callee.get(place):
            return CONTRACTS.get(fn.callee[place], ([], []))[1]
    for place, arm in fn.arm.items():
        if arm and arm[0] == step:
            up = place
            while up and fn.callee.get(up) is None:
                up = fn.parent.get(up)
            return CONTRACTS.get(fn.callee.get(up) or "", ([], []))[1]
    return []


class Fn:
    def __init__(self, data, own=""):
        self.own = own
        self.cycle = False
        self.d = data
        self.parent = {p[0]: p[1] for p in data["places"]}
        self.field = {p[0]: p[2] for p in data["places"]}
        self.callee = {p[0]: p[3] for p in data["places"]}
        self.extra = {p[0]: p[4] for p in data["places"]}
        self.need = {}
        for i, (old, new) in enumerate(data["needs"]):
            self.need[norm(old)] = (new, i)
        self.at = [a[0] for a in data["asked_at"]]
        self.clauses = {p[0]: c for p, c in zip(data["places"], data["clauses"])}
        self.arm = {p[0]: a for p, a in zip(data["places"], data["arms"])}
        self.asked = {norm(k): v for k, v in data["asked"].items()}
        self.byname = {}
        for p in data["places"]:
            self.byname[norm(p[0])] = p[0]
        self.for_loops = set()
        for s in data["settled"]:
            m = re.match(r"overflow_step-(.*)", s)
            if m:
                self.for_loops.add("loop-" + m.group(1))
        self.pre = data["pre"]
        self.args = {}
        for a, b in data["args"]:
            ma, mb = re.match(r"\.args \.(\S+)$", a), re.match(r"\.args \.(\S+)$", b)
            if ma and mb:
                self.args[ma.group(1)] = mb.group(1)


def by_name(fn, goal, f):
    """The place on the way to the goal whose step bears a name."""
    place = goal
    while place is not None:
        old, new = fn.field.get(place, ("", ""))
        if old and norm(old) == norm(f):
            return place
        place = fn.parent.get(place)
    return None


def on_way(fn, goal, place):
    while goal is not None:
        if goal == place:
            return True
        goal = fn.parent.get(goal)
    return False


def field(fn, place, f, rest):
    arm = fn.arm.get(place)
    if arm:
        for new, old, path in arm[2]:
            if norm(old) == norm(f) and rest[: len(path)] == path and (path or not rest):
                tail = rest[len(path):]
                if new == "ensures":
                    up = place
                    while up and fn.callee.get(up) is None:
                        up = fn.parent.get(up)
                    tail = clause(CONTRACTS.get(fn.callee.get(up) or "", ([], []))[1], tail)
                return "text", ".".join(["c", arm[0], new] + tail)
    new = fn.field[place][1]
    names = fn.d["params"].get(fn.callee.get(place) or "", [])
    if rest and rest[0] in ("new", "auto", "args") and len(rest) > 1 and rest[1].isdigit() and names:
        k, left = 0, rest[1:]
        if int(left[0]) > 1:
            k, left = int(left[0]), left[1:]
        else:
            while left and left[0] == "1" and k < len(names) - 1:
                k, left = k + 1, left[1:]
            if left and left[0] == "0" and k < len(names) - 1:
                left = left[1:]
        rest = [rest[0], names[k] if k < len(names) else str(k)] + left
    rest = [r.replace("-", "_") for r in rest]
    swap = dict(map(tuple, fn.extra.get(place, [])))
    if rest and rest[0] in swap and rest[0] in ("true", "false"):
        rest = [swap[rest[0]]] + rest[1:]
    if rest[:1] == ["ensures"] and fn.callee.get(place) in CONTRACTS:
        rest = ["ensures"] + clause(CONTRACTS[fn.callee[place]][1], rest[1:])
    told = fn.clauses.get(place)
    if told and rest[:1] == ["ensures"] and len(told["fields"]) == 1 and rest[1:2] != told["fields"]:
        rest = ["ensures", told["fields"][0]] + rest[1:]
    elif told and rest[:1] == ["ensures"] and len(rest) > 1 and rest[1].isdigit() and int(rest[1]) < len(told["fields"]):
        rest = ["ensures", told["fields"][int(rest[1])]] + rest[2:]
    if "loop" in new:
        rest = ["invariant" if r == "inv" else r for r in rest[:1]] + rest[1:]
    return "text", ".".join(["c", new] + rest)


def walk(fn, goal, place, parts, log):
    """Returns ('place', P) or ('text', s). place is None where the count of steps has gone past the start."""
    parts = list(parts)
    while parts and parts[0] == "before":
        place = fn.parent.get(place) if place is not None else None
        parts = parts[1:]
    if not parts:
        return "place", place
    f, rest = parts[0], parts[1:]
    f = {"pre": "requires", "well-formed": "well_formed"}.get(f, f)
    if f in ("requires", "args", "ranges", "utf8", "well_formed"):
        rest = [r.replace("-", "_") for r in rest]
        if f == "requires" and fn.cycle:
            if rest[:1] == ["0"]:
                return "text", ".".join(["c", "decreases"] + rest[1:])
            if rest[:1] == ["1"]:
                rest = rest[1:]
        if f == "requires" and fn.own in CONTRACTS:
            rest = clause(CONTRACTS[fn.own][0], rest)
        if rest and f in ("args", "ranges"):
            rest = [fn.args.get(rest[0], rest[0])] + rest[1:]
        return "text", ".".join(["c", f] + rest)
    old, new = fn.field.get(place, ("", ""))
    if place is not None and old and norm(f) == norm(old):
        return field(fn, place, f, rest)
    for o, n in fn.extra.get(place, []):
        if norm(o) == norm(f):
            log.append(f"extra {o} -> {n} at {place}")
            return "text", ".".join(["c", new, "auto", n] + rest) if new else ".".join(["c", n] + rest)
    hit = by_name(fn, goal, f)
    if hit is not None:
        return field(fn, hit, f, rest)
    log.append(f"field {f} at {place} ({old})")
    return "text", ".".join(["c", "XX" + f] + rest)


def turn(fn, goal, body, env, log, helpers):
    """Turns a body: env maps a variable to a place."""
    env = dict(env)
    # helpers applied to a place
    for _ in range(400):
        changed = False
        for h, (kind, param, hbody, htype) in helpers.items():
            path = r"[A-Za-z][\w.'₀-₉-]*"
            pat = re.compile(r"\(" + re.escape(h) + r" (" + path + r")\)|\(" + re.escape(h) + r" \((" + path + r")\)\)|(?<![\w.-])" + re.escape(h) + r" (" + path + r")(?![\w'-])|(?<![\w.-])" + re.escape(h) + r" \((" + path + r")\)")
            m = pat.search(body)
            if not m:
                continue
            arg = m.group(1) or m.group(2) or m.group(3) or m.group(4)
            put = lambda s: re.sub(r"(?<![\w.'-])" + re.escape(param) + r"(?![\w'-])", arg, s).strip()
            for n in set(re.findall(r"let ([A-Za-z]\w*'*) [=:]", hbody)):
                hbody = re.sub(r"(?<![\w.'-])" + re.escape(n) + r"(?![\w'-])", n + "0", hbody)
            for n in set(re.findall(r"let ([A-Za-z]\w*'*) [=:]", htype)):
                htype = re.sub(r"(?<![\w.'-])" + re.escape(n) + r"(?![\w'-])", n + "1", htype)
            inner = put(hbody)
            if kind == "place":
                rep = inner if re.match(r"^[\w.'₀-₉-]+$", inner) else "(" + inner + ")"
            else:
                rep = f"(let {h}0 : ({put(htype)}) = {inner} in {h}0)" if htype else "(" + inner + ")"
            body = body[: m.start()] + rep + body[m.end():]
            used.add(h)
            body = re.sub(r"\(([A-Za-z][\w'₀-₉]*(?:\.before)*)\)(?=\.)", r"\1", body)
            body = re.sub(r"= \(([A-Za-z][\w'₀-₉]*(?:\.before)*)\) in", r"= \1 in", body)
            changed = True
            break
        if not changed:
            break
    out, pos = [], 0
    # lets that bind places are dropped; words that are paths are turned
    token = re.compile(r"let (?:\(?)([\w'₀-₉-]+)(?:\)?) =\s+(" + WORD + r") in[ \t]*\n?[ \t]*|" + r"(?<![\w.'₀-₉-])(?!let \()([A-Za-z][\w'₀-₉-]*)((?:\.[\w'₀-₉-]+)*)|let (\([^=\n]*\)) =")
    alias, steps, recs, given = set(), {}, {}, {}
    def sub(text):
        res, i = [], 0
        for m in token.finditer(text):
            if m.start() < i:
                continue
            if m.group(1):
                parts = m.group(2).split(".")
                if parts[0] in env:
                    kind, val = walk(fn, goal, env[parts[0]], parts[1:], log)
                    if kind == "place":
                        env[m.group(1)] = val
                        for d in (steps, recs, given):
                            d.pop(m.group(1), None)
                        alias.discard(m.group(1))
                        res.append(text[i:m.start()])
                        i = m.end()
                        continue
                    env.pop(m.group(1), None)
                    recs.pop(m.group(1), None)
                    if len(names_of(fn, val)) > 1:
                        recs[m.group(1)] = names_of(fn, val)
                    if ".given" in val:
                        given[m.group(1)] = (env[parts[0]], parts[1:])
                        res.append(text[i:m.start()])
                        i = m.end()
                        continue
                    (alias.add if val == "c.args" else alias.discard)(m.group(1))
                    at = next((q for q, f in fn.field.items() if "c." + f[1] == val and on_way(fn, goal, q)), None)
                    if at:
                        steps[m.group(1)] = at
                    else:
                        steps.pop(m.group(1), None)
                    res.append(text[i:m.start()] + m.group(0).replace(m.group(2), val, 1))
                    i = m.end()
                    continue
                env.pop(m.group(1), None)
                continue
            if m.group(5):
                for n in re.findall(r"[\w'-]+", m.group(5)):
                    env.pop(n, None), steps.pop(n, None), given.pop(n, None), recs.pop(n, None), alias.discard(n)
                m2 = re.compile(r"\s+(" + WORD + r") in(?!\w)").match(text, m.end())
                if m2 and m2.group(1).split(".")[0] in env:
                    parts = m2.group(1).split(".")
                    kind, val = walk(fn, goal, env[parts[0]], parts[1:], log)
                    if kind == "text" and len(names_of(fn, val)) > 1:
                        res.append(text[i:m.start()] + m.group(0) + " " + val + " in")
                        i = m2.end()
                continue
            if m.group(3) in steps and m.group(4):
                parts = m.group(4).split(".")[1:]
                if parts[0] == "before":
                    res.append(text[i:m.start()] + walk(fn, goal, steps[m.group(3)], parts, log)[1])
                    i = m.end()
                    continue
                val = field(fn, steps[m.group(3)], parts[0], parts)[1]
                res.append(text[i:m.start()] + m.group(3) + val[len("c." + fn.field[steps[m.group(3)]][1]):])
                i = m.end()
                continue
            if m.group(3) in given:
                place, way = given[m.group(3)]
                val = walk(fn, goal, place, way + m.group(4).split(".")[1:], log)[1]
                res.append(text[i:m.start()] + val)
                i = m.end()
                continue
            if m.group(3) in recs:
                if m.group(4):
                    val = ".".join([m.group(3)] + clause(recs[m.group(3)], m.group(4).split(".")[1:]))
                else:
                    val = tupled(m.group(3), recs[m.group(3)])
                res.append(text[i:m.start()] + val)
                i = m.end()
                continue
            if m.group(3) in alias and m.group(4):
                parts = m.group(4).split(".")[1:]
                parts = [fn.args.get(parts[0], parts[0])] + parts[1:]
                res.append(text[i:m.start()] + ".".join([m.group(3)] + [q.replace("-", "_") for q in parts]))
                i = m.end()
                continue
            if m.group(3) in env:
                kind, val = walk(fn, goal, env[m.group(3)], [p for p in m.group(4).split(".") if p], log)
                if kind == "place":
                    log.append(f"place {val} as a value")
                    val = "XX" + m.group(0)
                else:
                    val = tupled(val, names_of(fn, val))
                res.append(text[i:m.start()] + val)
                i = m.end()
        res.append(text[i:])
        return "".join(res)
    return sub(body)


def cut(text):
    """The parts of the tuple `(a, b, ..)` that the text is, or None."""
    text = text.strip()
    if not text.startswith("("):
        return None
    depth, cuts, last = 0, [], 1
    for i, ch in enumerate(text):
        depth += (ch in "([{") - (ch in ")]}")
        if depth == 0:
            if i != len(text) - 1:
                return None
            cuts.append(text[last:i])
            return [c.strip() for c in cuts if c.strip()]
        if depth == 1 and ch == ",":
            cuts.append(text[last:i])
            last = i + 1
    return None


def as_record(body, names, log):
    """The tuple at the end of a body as a record of clauses by their names."""
    at, depth = 0, 0
    for m in re.finditer(r"[(\[{]|[)\]}]|(?<!\w)in\s+", body):
        if m.group(0)[0] in "([{":
            depth += 1
        elif m.group(0)[0] in ")]}":
            depth -= 1
        elif depth == 0:
            at = m.end()
    end = body[at:].strip()
    if re.match(r"(?:omega|grind|search|simp|cc) (?:\w+|\(.*\))$", end, re.S) and (cut(end.split(" ", 1)[1]) is not None or "(" not in end):
        return body[:at] + "record { " + "; ".join(f"{n} = {end}" for n in names) + " }"
    parts = cut(end)
    while parts and 1 < len(parts) < len(names) and cut(parts[-1]):
        parts = parts[:-1] + cut(parts[-1])
    if parts and len(parts) == len(names):
        return body[:at] + "record { " + "; ".join(f"{n} = {p}" for n, p in zip(names, parts)) + " }"
    text = body.rstrip()
    if text.endswith(")"):
        depth, i = 0, len(text) - 1
        while i >= 0:
            depth += (text[i] == ")") - (text[i] == "(")
            if depth == 0:
                break
            i -= 1
        parts = cut(text[i:])
        while parts and len(parts) > 1 and len(parts) < len(names) and cut(parts[-1]):
            parts = parts[:-1] + cut(parts[-1])
        if parts and len(parts) == len(names):
            return text[:i] + "(record { " + "; ".join(f"{n} = {p}" for n, p in zip(names, parts)) + " })"
    if not parts or len(parts) == 1:
        out, way = [], "it"
        for n in names[:-1]:
            out.append(f"{n} = {way}.0")
            way += ".1"
        out.append(f"{names[-1]} = {way}")
        return body[:at] + "let it = " + end + " in\n    record { " + "; ".join(out) + " }"
    log.append("clauses " + " ".join(names) + " not told apart")
    return body


def unpaired(fn, body, log):
    """`let (a, (b, c)) = c.requires in` becomes a let for each clause."""
    def one(m):
        path = m.group(2)
        names = None
        if path == "c.requires":
            names = CONTRACTS.get(fn.own, ([], []))[0]
        elif path.endswith(".ensures"):
            step = path.split(".")[1]
            for place, (old, new) in fn.field.items():
                if new == step and fn.callee.get(place) in CONTRACTS:
                    names = CONTRACTS[fn.callee[place]][1]
            for place, arm in fn.arm.items():
                if arm and arm[0] == step:
                    up = place
                    while up and fn.callee.get(up) is None:
                        up = fn.parent.get(up)
                    names = CONTRACTS.get(fn.callee.get(up) or "", ([], []))[1]
        if not names or len(names) < 2:
            return m.group(0)
        parts = cut(m.group(1))
        while parts and len(parts) < len(names) and cut(parts[-1]):
            parts = parts[:-1] + cut(parts[-1])
        if not parts or len(parts) != len(names):
            log.append("let " + m.group(1))
            return m.group(0)
        return "\n    ".join(f"let {p} = {path}.{n} in" for p, n in zip(parts, names) if p != "_")
    return re.sub(r"let (\([^=\n]*\)) = (c[\w.-]*) in", one, body)


def invariant(fn, name, decl, k, log, measure):
    loop = fn.d["loops"][k]
    (old, new), vars_ = loop[0], loop[1]
    changed = fn.d["changed"][k]
    text = "\n".join(decl["lines"][1:])
    m = re.match(re.escape(decl["name"]) + r"((?:\s+" + WORD + r")*?)\s*=(?=\s)", text)
    if not m:
        log.append("invariant not read: " + decl["name"])
        return None
    params = m.group(1).split()
    body = text[m.end():]
    want = [("i", v) if c else ("n", v) for v, c in zip(vars_, changed)] + [("n", v) for v, c in zip(vars_, changed) if c]
    if len(want) != len(params):
        log.append(f"invariant {decl['name']}: {len(params)} parameters, {len(want)} wanted: {params} {vars_} {changed}")
    table = {}
    for p, (kind, v) in zip(params, want):
        table[p] = f"l.initial.{v}" if kind == "i" else f"l.{v}"
    def one(m):
        return table.get(m.group(1), m.group(1)) + m.group(2)
    body = re.sub(r"(?<![\w.'₀-₉-])([A-Za-z][\w'₀-₉-]*)((?:\.[\w'₀-₉-]+)*)", one, body)
    kind = "decreases" if measure else "invariant"
    stem = new
    return f"abbrev pub {kind}-{stem} : goal.{kind}-{stem}\n" + "\n".join(l for l in decl["lines"][1:1] ) + f"{kind}-{stem} l ={body}"


def main():
    crate, names = sys.argv[1], json.load(open(sys.argv[2]))
    CONTRACTS.update(contracts())
    only = set(sys.argv[3:])
    top = os.path.join("crates", crate)
    old = os.path.join(os.environ.get("OLD", "/nowhere"), crate)
    for folder, _, fs in sorted(os.walk(old)):
        if "Proof.antt" not in fs:
            continue
        rel = os.path.relpath(folder, old)
        if only and os.path.basename(rel) not in only and rel not in only:
            continue
        key = "Rattle-" + crate + "-proofs." + rel.replace("/", ".") + ".Lts"
        log = []
        text = open(os.path.join(folder, "Proof.antt"), encoding="utf-8").read()
        cycle = os.path.basename(rel)[1:] if os.path.basename(rel).startswith("+") else ""
        if cycle:
            key += "-" + cycle
        if key not in names or ("tie.close" not in text and not cycle):
            print(f"{rel}: by hand ({'no names' if key not in names else 'no tie'})")
            continue
        fn = Fn(names[key], "::".join([crate] + rel.replace("+", "").split("/")))
        fn.cycle = bool(cycle)
        cycle = cycle.replace("_", "[-_]")
        head, decls = split_decls(text)
        if cycle:
            for d in decls:
                d["lines"][0] = re.sub(r"^" + cycle + r"-(\S+) : \(t : ℕ\) → \S+-lts\.Need-(\S+).*", r"\1 : tie.Need-\2", d["lines"][0])
                d["lines"][0] = re.sub(r"^(\S+) : \(t : ℕ\) → tie", r"\1 : tie", d["lines"][0])
                d["lines"] = d["lines"][:1] + [re.sub(r"^" + cycle + r"-(?=\S+ t c)", "", l) for l in d["lines"][1:]]
                d["name"] = re.sub(r"^" + cycle + "-", "", d["name"]) if d["lines"][0].startswith(re.sub(r"^" + cycle + "-", "", d["name"]) + " : tie.Need") else d["name"]
            decls = [d for d in decls if not re.match(r"(μ-|claims|" + cycle + r"-(at|below)$|\+)", d["name"])]
        notes = [l for l in head if l.startswith("--")]
        uses, cur = [], None
        for l in head:
            if l.startswith("use "):
                uses.append(l)
            elif l.startswith(" ") and uses:
                uses[-1] += "\n" + l
        uses = [u for u in uses if not re.search(r"\.Tie as tie|\{statement\}|\.Tie\.\{close\}|\.Reads as |\.Kinds as |\.Lts-\S+ as |use borrow\.Fn\.", u)]
        helpers, answers, invs, locals_ = {}, [], [], []
        opened.clear()
        loops = 0
        stem = {}
        for d in decls:
            sig = d["lines"][0]
            n = d["name"]
            whole = "\n".join(d["lines"])
            if n.endswith("-spec") or n.endswith("_spec"):
                continue
            m = re.search(r": tie\.(invariant|decreases)-(loop\d*)\b", sig)
            if m:
                k = [norm(l[0][0]) for l in fn.d["loops"]].index(norm(m.group(2))) if norm(m.group(2)) in [norm(l[0][0]) for l in fn.d["loops"]] else None
                if k is None:
                    log.append("loop " + m.group(2) + " not found")
                    continue
                if m.group(1) == "decreases" and fn.d["loops"][k][0][1] in fn.for_loops:
                    continue
                r = invariant(fn, n, d, k, log, m.group(1) == "decreases")
                if r:
                    invs.append(("\n".join(d["notes"]) + "\n" if d["notes"] else "") + r)
                continue
            m = re.search(r":\s+tie\.Need-(\S+)", whole)
            if m and re.match(r"^\S+ :\s+tie\.Need", whole):
                cands = [n, m.group(1)]
                cands += [c.replace("overflow-", "").replace("overflow_", "") for c in cands]
                ren = []
                for c in cands:
                    c = norm(c)
                    c = re.sub(r"^(loop\d*)-holds", r"\1-init", c)
                    c = re.sub(r"^(loop\d*)-less", r"\1-smaller", c)
                    c = re.sub(r"^(loop\d*)-again", r"\1-preserved", c)
                    ren.append(c)
                hit = next((c for c in ren if c in fn.need), None)
                # the body
                k = next((i for i, l in enumerate(d["lines"]) if i and not l.startswith((" ", "unfolding"))), None)
                if k is None:
                    log.append("no body: " + n)
                    continue
                unf = [l for l in d["lines"][1:k]]
                body = "\n".join(d["lines"][k:])
                mm = re.match(re.escape(n) + r"((?:\s+" + WORD + r")*?)\s*=(?=\s)", body)
                if not mm:
                    log.append("clauses: " + n)
                    continue
                args = mm.group(1).split()
                rhs = body[mm.end():].strip("\n")
                if rhs.strip() in TRIVIAL:
                    continue
                if not hit and re.match(r"same-length", norm(n)):
                    continue
                if not hit:
                    log.append(f"no goal for {n} ({m.group(1)})")
                    continue
                answers.append((hit, n, d["notes"], unf, rhs, args))
                continue
            m = re.search(r":\s*\((\S+) : tie\.\S+[^)]*\)|: tie\.", whole)
            if m:
                k = next((i for i, l in enumerate(d["lines"]) if i and not l.startswith((" ", "unfolding"))), None)
                body = "\n".join(d["lines"][k:]) if k else ""
                mm = re.match(re.escape(n) + r"((?:\s+" + WORD + r")*?)\s*=(?=\s)", body)
                if mm and len(mm.group(1).split()) == 1:
                    rhs = body[mm.end():].strip()
                    isplace = "→ tie." in whole
                    said = " ".join(x.strip() for x in d["lines"][:k] if not x.startswith("unfolding"))
                    ht = re.match(re.escape(n) + r" : \(\S+ : tie\.[^)]*\)\s*→ (.*)$", said)
                    hp = re.match(re.escape(n) + r" : \((\S+) : tie", said)
                    ty = ht.group(1) if ht and hp else ""
                    if ty and hp.group(1) != mm.group(1).split()[0]:
                        ty = re.sub(r"(?<![\w.'-])" + re.escape(hp.group(1)) + r"(?![\w'-])", mm.group(1).split()[0], ty)
                    helpers[n] = ("place" if isplace else "term", mm.group(1).split()[0], rhs, ty)
                    opened[n] = [w for l in d["lines"][1:k] if l.startswith("unfolding") for w in l.split()[1:]]
                else:
                    log.append("helper " + n)
                    locals_.append(whole)
                continue
            locals_.append(("\n".join(d["notes"]) + "\n" if d["notes"] else "") + whole)
        res = []
        for hit, n, note, unf, rhs, args in answers:
            args = [a for a in args if a not in ("κs", "ks")]
            var = "c" if "c" in args else (args[-1] if args else "c")
            pre = args[: args.index(var)] if var in args else []
            post = args[args.index(var) + 1:] if var in args else []
            if hit:
                new, i = fn.need[hit]
                place = fn.at[i] if i < len(fn.at) else None
            else:
                new, place = "XX" + n, None
            env = {var: place} if place else {}
            used.clear()
            body = turn(fn, place, rhs, env, log, helpers) if place else rhs
            words = [w for l in unf for w in l.split()[1:]]
            words += [w for h in sorted(used) for w in opened.get(h, []) if w not in words]
            unf = ["unfolding " + " ".join(dict.fromkeys(words))] if words else []
            body = re.sub(r"\(not-(true|false) _ (c\.[\w-]+)\.(true|false)-raw\)", r"\2.\3", body)
            body = re.sub(r"not-(true|false) _ (c\.[\w-]+)\.(true|false)-raw", r"\2.\3", body)
            body = unpaired(fn, body, log)
            if hit and fn.asked.get(hit):
                body = as_record(body, fn.asked[hit], log)
            res.append("".join(x + "\n" for x in note) + f"pub {new} : goal.{new}\n" + "".join(u + "\n" for u in unf) + " ".join([new] + pre + ["c"] + post) + " =" + (("\n    " + body.strip()) if "\n" in body.strip() else " " + body.strip()))
        path = "Rattle." + crate + ".proofs." + rel.replace("/", ".")
        to = os.path.join(top, "proofs", rel)
        os.makedirs(to, exist_ok=True)
        if invs:
            with open(os.path.join(to, "Invariants.antt"), "w", encoding="utf-8") as f:
                f.write("\n".join(notes + uses + [f"use {path}.Given as goal", ""]) + "\n" + "\n\n".join(invs) + "\n")
        if res or locals_:
            with open(os.path.join(to, "Answers.antt"), "w", encoding="utf-8") as f:
                f.write("\n".join(notes + uses + [f"use {path}.Goals as goal", ""]) + "\n" + "\n\n".join(locals_ + res) + "\n")
        if not invs and not res and not locals_:
            os.rmdir(to) if not os.listdir(to) else None
        if log:
            print(f"{rel}: " + "; ".join(log))


main()
