#!/usr/bin/env python3
"""Turns a crate's old proofs, proofs/F/Proof.antt that end in tie.close, into Invariants.antt and Answers.antt.

usage: answers.py NAMES CRATE [FUNCTION..]     at the top of the repository; NAMES is the names.json of
       `rt check --generated FOLDER --old-names` in that crate.

It goes by text, and proves nothing: what it cannot name it leaves as it was and prints."""

import json
import os
import re
import sys

TOP = re.compile(r"^\S")
WORD = re.compile(r"(?<![\w'₀₁◌·-])[A-Za-z_α-ωκ][\w'₀₁◌·-]*")


def norm(name):
    name = name.replace("_", "-")
    return re.sub(r"^(overflow|nonzero|bounds|slice-bounds|offset-bounds)-", "", name)


def blocks(text):
    """The top-level blocks of a file: comment lines go with what follows."""
    out, cur = [], []
    for line in text.split("\n"):
        if TOP.match(line) and not (cur and cur[-1].startswith("--") ) and not (cur and line.startswith("unfolding")):
            if cur:
                out.append("\n".join(cur))
            cur = [line]
        else:
            cur.append(line)
    if cur:
        out.append("\n".join(cur))
    return out


class Names:
    def __init__(self, entry):
        self.goals, self.goal_at, self.arms, self.places = {}, {}, {}, {}
        self.by_name = entry["places_by_name"]
        self.list = entry["places"]
        self.index, self.parent, self.step = {}, [], []
        for i, (name, parent, step, callee, *_) in enumerate(entry["places"]):
            self.places.setdefault(norm(name), self.by_name[i])
            self.index.setdefault(norm(name), i)
            self.index.setdefault(norm(self.by_name[i]), i)
        for name, parent, step, *_ in entry["places"]:
            self.parent.append(self.index.get(norm(parent)) if parent else None)
            self.step.append(step)
        for i, arm in enumerate(entry["arms"]):
            for field, step, path in arm[2] if arm else []:
                self.arms[(i, norm(step), tuple(path))] = (arm[0], field)
        for (old, new), (at, _) in zip(entry["needs"], entry["asked_at"]):
            for key in (norm(old), norm(new)):
                if key not in self.goals:
                    self.goals[key], self.goal_at[key] = new, self.index.get(norm(at))
        self.raw = entry

    def above(self, place):
        while place is not None:
            yield place
            place = self.parent[place]

    def found(self, place, step, tail):
        """The new step and what follows it, for an old step seen from a place or from any."""
        seen = list(self.above(place)) if place is not None else range(len(self.step))
        for p in seen:
            for n in range(len(tail), -1, -1):
                arm = self.arms.get((p, norm(step), tuple(tail[:n])))
                if arm:
                    return [arm[0], arm[1]] + tail[n:]
        for p in seen:
            if norm(self.step[p][0]) == norm(step) and self.step[p][0]:
                if tail and tail[0] in ("taken", "left"):
                    tail = [{"taken": "true", "left": "false"}[tail[0]]] + tail[1:]
                return [self.step[p][1]] + tail
        bare = re.sub(r"\d+$", "", norm(step))
        for p in seen:
            if self.step[p][0] and bare != norm(step) and re.sub(r"\d+$", "", norm(self.step[p][0])) == bare:
                return [self.step[p][1]] + tail
        return None


ROOTS = {"args", "requires", "ranges", "well_formed", "well-formed", "type_inv", "auto"}


def paths(text, names, at):
    env = {"c": at}
    for m in re.finditer(r"\((\w+) : tie\.([A-Z][\w-]*)", text):
        env[m.group(1)] = names.index.get(norm(m.group(2)))
    for m in re.finditer(r"let ([\w₀₁]+) = (\w+)((?:\.before)*) in", text):
        p = env.get(m.group(2))
        for _ in range(m.group(3).count(".before")):
            p = names.parent[p] if p is not None else None
        env[m.group(1)] = p

    def path(m):
        var, rest = m.group(1), m.group(2).split(".")[1:]
        k = 0
        while k < len(rest) and rest[k] == "before":
            k += 1
        if k == len(rest):
            return m.group(0)
        step, tail = rest[k], rest[k + 1 :]
        if step in ROOTS:
            return ".".join([var, step.replace("-", "_")] + tail)
        if not (k or var in env):
            return m.group(0)
        p = env.get(var)
        for _ in range(k):
            p = names.parent[p] if p is not None else None
        got = names.found(p, step, tail) or names.found(env.get(var), step, tail) or names.found(None, step, tail)
        return ".".join([var] + got) if got else m.group(0)

    return re.sub(r"(?<![\w'.₀₁-])([A-Za-z][\w'₀₁-]*)((?:\.[\w'-]+)+)", path, text)


USED = set()


def places(text, names):
    def place(m):
        name = m.group(1)
        got = names.places.get(norm(name))
        USED.add(got or name)
        return got or name

    return re.sub(r"tie\.([A-Z][\w-]*)((?: (?:invariant|decreases)-[\w-]+)*)", place, text)


def rename(text, table):
    return WORD.sub(lambda m: table.get(m.group(0), m.group(0)), text)


def main():
    table = json.load(open(sys.argv[1]))
    crate = sys.argv[2]
    only = sys.argv[3:]
    base = f"crates/{crate}/proofs"
    for folder, _, files in sorted(os.walk(base)):
        if "Proof.antt" not in files:
            continue
        fn = os.path.relpath(folder, base)
        if only and fn not in only:
            continue
        path = os.path.join(folder, "Proof.antt")
        text = open(path, encoding="utf-8").read()
        if "tie.close" not in text:
            print(f"{fn}: by hand, left")
            continue
        key = f"Rattle-{crate}-proofs." + fn.replace("/", ".") + ".Lts"
        if key not in table:
            print(f"{fn}: no names, left ({key})")
            continue
        names = Names(table[key])
        convert(crate, fn, folder, text, names)


def convert(crate, fn, folder, text, names):
    module = f"Rattle.{crate}.proofs." + fn.replace("/", ".")
    heads, uses, bodies = [], [], []
    for b in blocks(text):
        first = next((l for l in b.split("\n") if l and not l.startswith("--")), "")
        if first.startswith("use "):
            comment = [l for l in b.split("\n") if l.startswith("--")]
            heads += comment
            line = "\n".join(l for l in b.split("\n") if not l.startswith("--"))
            if ".Statement." not in line and not re.search(r"\.Tie( as tie|\b)", line):
                uses.append(line.rstrip())
        elif first == "":
            heads.append(b.rstrip())
        else:
            bodies.append(b.rstrip())
    renames, invariants, kept = {}, [], []
    for b in bodies:
        lines = [l for l in b.split("\n") if not l.startswith("--")]
        sig = lines[0]
        name = re.match(r"(?:pub |abbrev |unfoldable )*(\S+)", sig).group(1)
        if re.search(r"tie\.close\b", b) or (name.endswith(("-spec", "_spec")) and "statement" in sig):
            continue
        kept.append((name, b))
    # join signature and definition blocks
    items = []
    for name, b in kept:
        if items and items[-1][0] == name:
            items[-1][1].append(b)
        else:
            items.append((name, [b]))
    out, has_goal = [], False
    for name, parts in items:
        whole = "\n".join(parts)
        m = re.search(r"^(?:pub )?(\S+) :\s+tie\.Need-([^\s]+)", whole, re.M)
        inv = re.search(r"^(abbrev|unfoldable)?\s*(?:pub )?(\S+) :\s+tie\.(invariant|decreases)-(\S+)", whole, re.M)
        if m:
            old = norm(m.group(2))
            new = names.goals.get(old) or names.goals.get(norm(name))
            if not new:
                print(f"{module}: no goal for {m.group(2)} ({name}); goals {list(names.goals.items())}")
                new = m.group(2)
            renames[name] = new
            out.append(("goal", name, new, whole))
            has_goal = True
        elif inv:
            out.append(("inv", name, inv.group(3), whole))
        else:
            out.append(("own", name, None, whole))
    write(crate, fn, folder, module, heads, uses, out, renames, names, has_goal)


def loop_names(names):
    got = []
    for g in names.raw["needs"]:
        m = re.match(r"(loop.*)-(init|preserved|smaller)$", g[1])
        if m and m.group(1) not in got:
            got.append(m.group(1))
    return got


def write(crate, fn, folder, module, heads, uses, out, renames, names, has_goal):
    loops = loop_names(names)
    USED.clear()
    answers, invs = [], []
    n_inv = 0
    for kind, name, extra, whole in out:
        body = rename(whole, renames)
        name = renames.get(name, name)
        if kind == "goal":
            body = re.sub(r"^(?:pub )?(\S+) :\s+tie\.Need-\S+(?: (?:invariant|decreases)-[\w-]+)*", lambda m: f"pub {extra} : goal.{extra}", body, count=1, flags=re.M)
            body = re.sub(rf"^{re.escape(name)} c κs =", f"{name} c =", body, flags=re.M)
            body = re.sub(rf"^{re.escape(name)} t c κs =", f"{name} t c =", body, flags=re.M)
        if kind == "inv":
            m = re.search(r"^(?:abbrev |unfoldable )?(?:pub )?(\S+) :\s+tie\.(invariant|decreases)-(\S+)$", body, re.M)
            loop = loops[0] if len(loops) == 1 else (m.group(3) if m else "loop")
            new = f"{extra}-{loop}"
            d = re.search(rf"^{re.escape(name)} ([^=]*) =", body, re.M)
            args = d.group(1).split()
            head = f"abbrev pub {new} : goal.{new}\n{new} l ="
            rest = body[d.end():]
            for a in args:
                to = f"l.initial.{a[:-1]}" if a.endswith("₀") else f"l.{a}"
                rest = re.sub(rf"(?<![\w'.₀-]){re.escape(a)}(?![\w'₀-])", to, rest)
            invs.append(head + rest)
            if len(loops) != 1:
                print(f"{module}: loops {loops}, look at {new}")
            continue
        body = paths(body, names, names.goal_at.get(norm(name)) if kind == "goal" else None)
        body = places(body, names)
        answers.append(body)
    head = "\n".join(h for h in heads if h)
    os.remove(os.path.join(folder, "Proof.antt"))
    if invs:
        with open(os.path.join(folder, "Invariants.antt"), "w", encoding="utf-8") as f:
            f.write(head + "\n" + "\n".join(uses) + f"\nuse {module}.Given as goal\n\n" + "\n\n".join(invs) + "\n")
    if has_goal or any(k == "own" for k, *_ in out):
        named = f"use {module}.Goals.{{{', '.join(sorted(USED))}}}\n" if USED else ""
        text = head + "\n" + "\n".join(uses) + f"\nuse {module}.Goals as goal\n{named}\n" + "\n\n".join(answers) + "\n"
        if has_goal:
            with open(os.path.join(folder, "Answers.antt"), "w", encoding="utf-8") as f:
                f.write(text)
    if not os.listdir(folder):
        os.rmdir(folder)


if __name__ == "__main__":
    main()
