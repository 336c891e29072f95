#!/usr/bin/env python3
"""Brings this repository's own names of definitions, fields, lemmas and locals to Rattle's spelling: snake case.

usage: python3 tools/spell.py [--dry]      at the top of the repository, once, behind port.py

In .antt files and in the ghost lines and clauses of .rt files a name of this repository that has a dash or a capital
inside, as `each-seen` or `sizeOf`, is written `each_seen`, `size_of`; a prime is an apostrophe. Types and modules, which
begin with a capital, keep their names, and so does a name that a file brings in from a library of the kit. In must-fail
edits, and in backquotes in documents, names that the repository declares are turned alike. It tells where two names fall together.
"""
import os
import re
import subprocess
import sys

TOKEN = re.compile(r"(?<![0-9A-Za-z_])[A-Za-zα-ωμ_][A-Za-z0-9α-ωμ_'′₀-₉-]*")
OURS = sorted(os.listdir("crates"))
# Names that would fall together with another one, or with a word of the language.
APART = {}
# Laws that port.py gave the name of what they are about: each gets `_lem`.
LAW = set()
if os.path.exists("tools/spell.apart"):
    for line in open("tools/spell.apart"):
        if line.strip() and not line.startswith("#"):
            was, now = line.split()
            if now == "law":
                LAW.add(was)
            else:
                APART[was] = now


def snake(name):
    name = APART.get(name, name)
    if re.fullmatch(r"[A-Z][A-Za-z0-9]*", name) or re.fullmatch(r"[A-Z0-9_]+", name):
        return name
    name = name.replace("′", "'").replace("-", "_")
    if re.search(r"[a-z0-9_][A-Z]|^[A-Z][a-z0-9]*_", name):
        name = re.sub(r"(?<=[a-z0-9])([A-Z])", r"_\1", name).lower()
    return name


def candidate(t):
    return snake(t) != t


def from_kit(text):
    """The names that a file brings in from the kit, and the aliases under which it names modules of the kit."""
    names, aliases = set(), set()
    for m in re.finditer(r"^(?:ghost |pub )*use ([^\s;{]+?)(?:\.\{([^}]*)\}|(?: as ([^\s;]+)))?;?$", text, re.M):
        path = m.group(1)
        parts = path.split(".")
        if parts[0] == "Rattle" and len(parts) > 1 and parts[1] in OURS:
            continue
        if m.group(2) is not None:
            for n in m.group(2).split(","):
                names.update(n.replace(" as ", " ").split())
        if m.group(3):
            aliases.add(m.group(3))
    return names, aliases


def turn_line(line, kit, aliases, skip_use=True):
    """A line of antt without its comment."""
    if skip_use:
        m = re.match(r"^((?:ghost |pub )*use )(\S+?)((?:\.\{.*\}|;| as .*)?;?)$", line)
        if m:
            parts = m.group(2).rstrip(";").split(".")
            if not (parts[0] == "Rattle" and len(parts) > 1 and parts[1] in OURS):
                return line
    out, at = [], 0
    for m in TOKEN.finditer(line):
        t = m.group(0)
        out.append(line[at:m.start()])
        at = m.end()
        before = line[: m.start()]
        keep = t in kit or not candidate(t) or before.endswith("tie.")
        if before.endswith(".") and not before.endswith("tie."):
            head = re.search(r"([^\s(){}.,;]+)\.$", before)
            if head and head.group(1) in aliases:
                keep = True
            elif candidate(t):
                keep = False
        if t in LAW and not re.match(r"\.(ensures|result|new|requires)\b", line[m.end():]) and not re.search(r"use [^{]*$", before):
            out.append(t + "_lem")
            continue
        out.append(t if keep else snake(t))
    out.append(line[at:])
    return "".join(out)


def turn_antt(text):
    kit, aliases = from_kit(text)
    lines = []
    for line in text.split("\n"):
        m = re.search(r"(^|\s)--(\s|$)", line)
        if m:
            lines.append(turn_line(line[: m.start()], kit, aliases) + turn_comment(line[m.start():]))
        else:
            lines.append(turn_line(line, kit, aliases))
    return "\n".join(lines)


DECLARED = set()
SPELLED = set()


def ours(name):
    return candidate(name) and (name in DECLARED or snake(name) in SPELLED)


def turn_comment(text):
    def one(m):
        t = m.group(0)
        return snake(t) if ours(t) and re.match(r"[a-z]+[a-z0-9]*[A-Z]", t) else t
    return TOKEN.sub(one, text)


def turn_quoted(text):
    """Names in backquotes."""
    def one(m):
        return re.sub(TOKEN, lambda n: snake(n.group(0)) if ours(n.group(0)) else n.group(0), m.group(0))
    return re.sub(r"`[^`\n]+`", one, text)


def ghost_spans(text):
    """The places of ghost use lines, clauses and ghost fields in a .rt file."""
    spans = []
    for m in re.finditer(r"^ *ghost use [^;]*;", text, re.M):
        spans.append(m.span())
    for m in re.finditer(r"^ *(?:requires|ensures|ghost)\b[^\n{]*\{", text, re.M):
        depth, i = 1, m.end()
        while depth and i < len(text):
            depth += {"{": 1, "}": -1}.get(text[i], 0)
            i += 1
        spans.append((m.end(), i))
    return sorted(spans)


def turn_rt(text):
    kit, aliases = from_kit(text)
    out, at = [], 0
    for a, b in ghost_spans(text):
        if a < at:
            continue
        out.append("".join(turn_code(l) for l in text[at:a].splitlines(True)))
        out.append("\n".join(turn_line(l, kit, aliases) for l in text[a:b].split("\n")))
        at = b
    out.append("".join(turn_code(l) for l in text[at:].splitlines(True)))
    return "".join(out)


def turn_code(line):
    m = re.search(r"//", line)
    return line if not m else line[: m.start()] + turn_comment(line[m.start():])


def turn_edit(text):
    def one(m):
        return snake(m.group(0)) if ours(m.group(0)) else m.group(0)
    return "\n".join(l[:4] + TOKEN.sub(one, l[4:]) if l.startswith(("old:", "new:")) else l for l in text.split("\n"))


def files(*ends):
    for top in ("crates",):
        for d, ds, fs in os.walk(top):
            ds[:] = sorted(x for x in ds if x != "out")
            for f in sorted(fs):
                if f.endswith(ends):
                    yield os.path.join(d, f)


def main():
    dry = "--dry" in sys.argv
    texts = {p: open(p).read() for p in files(".antt", ".rt", ".edit")}
    for p, t in texts.items():
        if p.endswith(".antt"):
            for m in re.finditer(r"^ *(?:unfoldable |abbrev )?(?:pub )?(?:data |record |abbrev )?([^\s:(){}]+) :(?!=)", t, re.M):
                DECLARED.add(m.group(1))
    SPELLED.update(snake(n) for n in DECLARED)
    # what falls together in one file
    bad = set()
    for p, t in texts.items():
        if not p.endswith((".antt", ".rt")):
            continue
        body = t if p.endswith(".antt") else "\n".join(t[a:b] for a, b in ghost_spans(t))
        body = re.sub(r"(^|\s)--(\s.*|$)", r"\1", body, flags=re.M)
        kit, _ = from_kit(t)
        seen = {}
        for m in TOKEN.finditer(body):
            n = m.group(0)
            if n in LAW:
                continue
            seen.setdefault(n if n in kit else snake(n), {}).setdefault(n, 0)
            seen[n if n in kit else snake(n)][n] += 1
        for now, was in seen.items():
            if len(was) > 1:
                bad.add((p, now, tuple(sorted(was))))
    groups = {}
    for p, now, was in bad:
        groups.setdefault((now, was), []).append(p)
    for (now, was), ps in sorted(groups.items()):
        print(f"look: {now} stands for {', '.join(was)} in {len(ps)}: {' '.join(sorted(ps)[:4])}")
    if dry:
        return
    for p, t in texts.items():
        n = turn_antt(t) if p.endswith(".antt") else turn_rt(t) if p.endswith(".rt") else turn_edit(t)
        if n != t:
            open(p, "w").write(n)
    for p in subprocess.run(["git", "ls-files", "*.md"], capture_output=True, text=True).stdout.split():
        t = open(p).read()
        n = turn_quoted(t)
        if n != t:
            open(p, "w").write(n)


main()
