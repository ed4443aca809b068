#!/usr/bin/env python3
"""Brings the repository's own definitions and lemmas to today's spelling: words in snake case, types in camel case.

usage: python3 tools/port_names.py        at the top of the checkout, once, after the kit's port.py

What is respelled: each name that a file of specs/ or proofs/ declares. A hump becomes an underscore and a small letter, a dash an underscore.
What stays: names from the source (functions, fields, variants, constants), names that the kit makes for a function's proof, names of the kit's
library, strings. Names that would fall together are listed, and then nothing is written.
"""

import collections
import os
import re
import sys

TOP = os.getcwd()
CRATES = os.path.join(TOP, "crates")
OWN = set(os.listdir(CRATES))
NAME = r'[^\s(){}.;,@"«»]+'
TOKEN = re.compile(NAME)
DECLARED = re.compile(rf"^( *)((?:pub |abbrev |unfoldable |mutual |record |data )*)({NAME})((?: [({{][^\n]*?[)}}])*) :(?= |$)")
USE = re.compile(r"(?m)^\s*(?:pub )?(?:ghost )?use ([^\s{;]+?)(?:\.\{([^}]*)\})?;?$")
# Types that were spelled like words, and names that the kit's script cut by the letter.
SPELLED = {"maskHas": "MaskHas", "maskRowFits": "MaskRowFits"}
# Lemmas that the kit's script gave the names of definitions.
LEMMAS = {"head_bytes": "head_bytes_lem", "lane_bound": "lane_bound_lem"}


def files(*endings):
    for folder, dirs, names in os.walk(CRATES):
        dirs[:] = sorted(d for d in dirs if d != "out")
        for f in sorted(names):
            if f.endswith(endings):
                yield os.path.join(folder, f)


def is_of_function(path):
    parts = os.path.relpath(path, CRATES).split("/")
    return parts[1] == "proofs" and len(parts) > 3


def has_hump(name):
    return bool(re.match(r"[a-z]", name)) and bool(re.search(r"(?<=[a-z0-9])[A-Z]", name))


def respelled(name):
    if name in SPELLED or name in LEMMAS:
        return {**SPELLED, **LEMMAS}[name]
    if not re.match(r"[a-z]", name):
        return name
    humps = lambda it: re.sub(r"(?<=[a-z0-9])[A-Z]", lambda m: "_" + m[0].lower(), it)
    # a part that begins with a capital is a type or a variant of the source, and stays
    name = "-".join(it if it[:1].isupper() else humps(it) for it in name.split("-"))
    name = name.replace("-", "_")
    return re.sub(r"^get_d_", "get_or_", name)


def declared_in(text):
    """The names that a text declares, and which of them are fields or constructors."""
    names, fields, inside = set(), set(), False
    for line in text.split("\n"):
        m = DECLARED.match(line)
        if re.match(r"^ *(?:pub )?(?:record|data) ", line):
            inside = True
            if m:
                names.add(m[3])
            continue
        if line and not line.startswith(" "):
            inside = False
        if m:
            names.add(m[3])
            if inside:
                fields.add(m[3])
    return names, fields


def imported(text):
    """What a text takes from the repository's own definitions and lemmas, and what from elsewhere."""
    own, other = set(), set()
    for path, items in USE.findall(text):
        steps = path.split(".")
        mine = steps[0] == "Rattle" and len(steps) > 2 and steps[1] in OWN and steps[2] in ("specs", "proofs") and "declared" not in steps
        names = {it for part in items.split(",") for it in part.split() if it != "as"}
        (own if mine else other).update(names)
    return own, other


def code_parts(text, comment):
    """A text cut into code and what is none: comments and strings."""
    return re.split(rf'({comment}[^\n]*|"(?:[^"\\\n]|\\.)*")', text)


def turned(text, table, humps, fields, comment, labels):
    def code(part):
        def one(m):
            it, at, end = m[0], m.start(), m.end()
            behind = part[:at].endswith(".") and not part[:at].endswith("..")
            if it in humps:
                return humps[it]
            if behind:
                holder = re.search(r"(\w+)\.$", part[:at])
                return fields[it] if it in fields and not (holder and holder[1] in ("tie", "goal")) else it
            if it in table:
                return table[it]
            if it in fields and re.match(r" = ", part[end:]) and not labels:
                return fields[it]
            return it

        return TOKEN.sub(one, part)

    def quiet(part):
        return re.sub(r"[A-Za-z_][\w'-]*", lambda m: humps.get(m[0], m[0]), part) if not part.startswith('"') else part

    parts = code_parts(text, comment)
    return "".join(quiet(it) if i % 2 else code(it) for i, it in enumerate(parts))


def main():
    texts = {p: open(p, encoding="utf-8").read() for p in files(".antt", ".rt")}
    humps, fields, own_names = {}, {}, {}
    for p, text in texts.items():
        if not p.endswith(".antt"):
            continue
        names, its = declared_in(text)
        for it in names:
            if respelled(it) != it and not is_of_function(p):
                own_names[it] = respelled(it)
        for it in its:
            if respelled(it) != it:
                fields[it] = respelled(it)
    # a hump stands in no name of the kit's or of the source: such a word is respelled wherever it stands, a bound variable too
    for p, text in texts.items():
        for i, part in enumerate(code_parts(text, "--" if p.endswith(".antt") else "//")):
            if i % 2 == 0:
                for it in TOKEN.findall(part):
                    if (has_hump(it) and "-" not in it) or it in SPELLED:
                        humps[it] = respelled(it)
    for it in list(fields):
        if re.search(r"(?<=[a-z0-9])[A-Z]", it) and it in own_names:
            humps[it] = respelled(it)

    # a lemma that would have a definition's name gets _lem, a field _is
    taken = {it for it in humps.values()}
    for p, text in texts.items():
        if p.endswith(".antt") and not is_of_function(p):
            taken |= {it for it in declared_in(text)[0] if respelled(it) == it}
    for it in list(own_names):
        if "-" in it and own_names[it] in taken:
            own_names[it] += "_is" if it in fields else "_lem"
    for it in list(fields):
        if it not in humps and fields[it] in taken and "-" in it:
            fields[it] = own_names[it] = respelled(it) + "_is"
    finals = collections.defaultdict(set)
    for it, to in {**own_names, **humps}.items():
        finals[to].add(it)
    for to, frm in sorted(finals.items()):
        if len(frm) > 1 and len({it for it in frm if "-" in it}) > 1:
            print("two names:", frm, to)

    clashes, new = [], {}
    for p, text in texts.items():
        rt = p.endswith(".rt")
        own, other = imported(text)
        mine = set() if rt else declared_in(text)[0]
        if is_of_function(p):
            table = {it: own_names[it] for it in own - other if it in own_names}
            mine_now = {it: respelled(it) for it in mine if has_hump(it)}
            table.update({it: to for it, to in mine_now.items() if it not in own_names})
        else:
            table = {it: own_names[it] for it in (own - other) | (mine - other) if it in own_names}
            if not rt:
                table.update({it: respelled(it) for it in mine if respelled(it) != it and it not in own_names})
        here = set()
        for i, part in enumerate(code_parts(text, "//" if rt else "--")):
            if i % 2 == 0:
                here.update(m[0] for m in TOKEN.finditer(part) if not part[: m.start()].endswith("."))
        goes = collections.defaultdict(set)
        for it in here:
            to = humps.get(it) or table.get(it)
            if to:
                goes[to].add(it)
        here -= LEMMAS.keys() & table.keys()
        for to, frm in goes.items():
            if len(frm) > 1 or (to in here and not rt):
                clashes.append(f"{os.path.relpath(p, TOP)}: {sorted(frm)} and {to if to in here else ''} would be {to}")
        new[p] = turned(text, table, humps, fields, "//" if rt else "--", is_of_function(p))
    print("\n".join(clashes) or "no names fall together")
    if clashes and "--force" not in sys.argv:
        return 1
    for p, text in new.items():
        if text != texts[p]:
            open(p, "w", encoding="utf-8").write(text)
    every = {**own_names, **humps}
    for p in list(files(".edit")):
        text = open(p, encoding="utf-8").read()
        to = TOKEN.sub(lambda m: humps.get(m[0], own_names.get(m[0], m[0]) if "-" in m[0] else m[0]), text)
        if to != text:
            open(p, "w", encoding="utf-8").write(to)
    with open(os.path.join(TOP, "docs", "PORT-NAMES.txt"), "w", encoding="utf-8") as f:
        for it in sorted(every):
            if every[it] != it:
                f.write(f"{it} {every[it]}\n")
    return 0


if __name__ == "__main__":
    sys.exit(main())
