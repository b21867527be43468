#!/usr/bin/env python3
"""Brings this repository's own definitions and lemmas to today's spelling, after port.py and once: words in snake case, modules in camel
case. Run at the top of the repository. A name that would fall together with a function of the same .rt file comes in there under the
name spec_NAME; a lemma that would have its definition's name gets _lem. Must-fail edits and pages are respelled with the files."""

import os
import re
import sys

TOKEN = re.compile(r"(?<![\w'◌·])[A-Za-z_◌][\w'◌·-]*")
BARE = re.compile(r"(?<![\w.◌'·-])([A-Za-z_◌][\w'◌·-]*)(?![\w'◌·-])(?!\.[A-Za-z{])")
LEMMAS = {"all_apart", "skip_at", "inputs_in", "fields_fit", "step_by", "in_order"}  # they would have their definition's name
USE = re.compile(r"^(ghost use [^{]*\{)([^}]*)(\};)", re.M)


def part(word):
    if re.fullmatch(r"x[0-9A-F]{2,4}", word):
        return word.lower()
    if not re.match(r"[a-z]", word):
        return word
    return re.sub(r"(?<=[a-z0-9'])([A-Z]+)", lambda m: "_" + m.group(1).lower(), word)


def prose(comment):
    return TOKEN.sub(lambda m: m.group(0) if re.search(r"(^|-)[a-z][A-Z]$", m.group(0)) else snake(m.group(0)), comment)


def by_line(text, mark, code):
    """The text with its code respelled, and the names in its comments, where rX, dS and the like are the papers' words for registers."""
    out = []
    for line in text.split("\n"):
        said, sep, comment = line.partition(mark)
        out.append(code(said) + sep + prose(comment))
    return "\n".join(out)


def snake(name):
    return name if name.startswith("_") else "-".join(part(w) for w in name.split("-"))


def uncommented(text):
    return re.sub(r"//.*", "", text)


def falls_together(text):
    """The names of a .rt file's ghost clauses that its Rust names have already."""
    names = set(TOKEN.findall(uncommented(text)))
    return {n for n in names if snake(n) != n and snake(n) in names}


def name_in_rt(name, clashes):
    return "spec_" + snake(name) if name in clashes else snake(name)


def named(text, m, clashes):
    # a name that stands behind its module's is in no danger
    return snake(m.group(0)) if text[: m.start()].endswith(".") else name_in_rt(m.group(0), clashes)


def brought_in(items, clashes):
    out = []
    for item in (i.strip() for i in items.split(",")):
        given, _, alias = item.partition(" as ")
        if alias:
            out.append(f"{snake(given)} as {name_in_rt(alias, clashes)}")
        elif given in clashes:
            out.append(f"{snake(given)} as spec_{snake(given)}")
        else:
            out.append(snake(given))
    return ", ".join(out)


def rt(text, clashes):
    uses = {}

    def keep(m):
        uses[len(uses)] = m.group(1) + brought_in(m.group(2), clashes) + m.group(3)
        return f"\0{len(uses) - 1}\0"

    text = USE.sub(keep, text)
    text = by_line(text, "//", lambda t: TOKEN.sub(lambda m: named(t, m, clashes), t))
    return re.sub("\0(\\d+)\0", lambda m: uses[int(m.group(1))], text)


def antt(text):
    text = BARE.sub(lambda m: m.group(1) + "_lem" if m.group(1) in LEMMAS else m.group(1), text)
    return by_line(text, "--", lambda t: TOKEN.sub(lambda m: snake(m.group(0)), t))


def edit(path, text, clashes):
    target = re.search(r"^file: (.*)$", text, re.M).group(1)
    crate = os.path.dirname(os.path.dirname(path))
    lines = text.splitlines(keepends=True)
    body = [i for i, l in enumerate(lines) if l.startswith(("old:", "new:"))]
    for i in body:
        head, rest = lines[i][:4], lines[i][4:]
        lines[i] = head + (rt(rest, clashes[os.path.join(crate, target)]) if target.endswith(".rt") else antt(rest))
    return "".join(lines)


ANSWER = re.compile(r"^( *(?:ghost )?use )Rattle\.words\.specs\.Answer\.\{([^}]*)\}(;?)\n", re.M)
IF = "if◌then◌else◌"


def library_words(path, text):
    """`if` is the library's own, and no module comes in under the library's word Any."""
    if re.search(r" as Any\b", text):
        text = re.sub(r"\bAny\b", "General", text)
    if path.endswith("words/specs/Answer.antt"):
        return re.sub(rf"infix 5 {IF}\n.*?\n\n", "", text, flags=re.S)
    m = ANSWER.search(text)
    items = [i.strip() for i in m.group(2).split(",")] if m else []
    if IF not in items:
        return text
    items.remove(IF)
    rest = f"{m.group(1)}Rattle.words.specs.Answer.{{{', '.join(items)}}}{m.group(3)}\n" if items else ""
    text = text[: m.start()] + rest + text[m.end() :]
    std = re.compile(rf"^({re.escape(m.group(1))}Rattle\.std\.specs\.Prelude\.\{{)([^}}]*)\}}", re.M)
    if std.search(text):
        return std.sub(lambda s: f"{s.group(1)}{s.group(2)}, {IF}}}", text, count=1)
    at = re.search(r"^ *(?:ghost )?use ", text, re.M)
    at = at.start() if at else m.start()
    return text[:at] + f"{m.group(1)}Rattle.std.specs.Prelude.{{{IF}}}{m.group(3)}\n" + text[at:]


def in_words():
    for p in files("crates", ".rt", ".antt", ".edit"):
        with open(p, encoding="utf-8") as f:
            old = f.read()
        if p.endswith(".edit"):
            new = re.sub(r"\bAny\.", "General.", old)
        else:
            new = library_words(p, old)
        if new != old:
            with open(p, "w", encoding="utf-8") as f:
                f.write(new)


def modules(text):
    return re.sub(r"\bas_coded\b", "AsCoded", text)


def files(top, *ends):
    for folder, dirs, names in os.walk(top):
        dirs[:] = sorted(d for d in dirs if d != "out")
        for n in sorted(names):
            if n.endswith(ends):
                yield os.path.join(folder, n)


def main():
    if sys.argv[1:] == ["--words"]:
        return in_words()
    old = {p: open(p, encoding="utf-8").read() for p in files("crates", ".rt", ".antt", ".edit")}
    clashes = {p: falls_together(t) for p, t in old.items() if p.endswith(".rt")}
    for p, t in old.items():
        if p.endswith(".rt"):
            t = rt(t, clashes[p])
        elif p.endswith(".antt"):
            t = antt(t)
        else:
            t = edit(p, t, clashes)
        with open(p, "w", encoding="utf-8") as f:
            f.write(modules(t))
    for folder, dirs, names in list(os.walk("crates")):
        for n in list(names) + list(dirs):
            if n in ("as_coded.antt", "as_coded"):
                os.rename(os.path.join(folder, n), os.path.join(folder, n.replace("as_coded", "AsCoded")))
    in_words()


if __name__ == "__main__":
    sys.exit(main())
