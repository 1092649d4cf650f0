#!/usr/bin/env python3
"""Brings the repository's own names to the library's spelling, once, after the toolchain's own script.

usage: tools/respell.py [TOP]      rewrites crates/ below TOP (here by default) in place
       tools/respell.py --clashes  changes nothing, and prints names that would fall together in a file

- Words are in snake case: `weightOf` and `weigh-capped` become `weight_of` and `weigh_capped`. Types, and names that join a type to a word by
  a dash, stay.
- The crate `csv`, whose name the toolchain's library has too, is `delivery_csv`.
- In crates whose definitions are edited by must-fail edits the laws stand in proofs/ and no longer in specs/: an edit of a definition that a
  file of specs/ rests on is not read as a refusal.
Names that a file imports from the toolchain's library stay as they are.
"""
import os
import re
import subprocess
import sys

NAME = re.compile(r"(?<![\w'-])[A-Za-z_][\w'-]*")
USE = re.compile(r"\buse\s+([^\s{;]+)\.\{([^}]*)\}")
# The crates whose laws move to proofs/.
MOVED = (
    "accepted_first agreement agreement_check agreement_example call_laws calls coin_box costliest drill_laws turn_bound unweighted wire_laws"
).split()
RENAMED_CRATES = {"csv": "delivery_csv"}
# Names whose plain spelling is another name's. The first was given by the toolchain's own script.
APART = {
    "in-force": "by_in_force",
    "inForce": "set_in_force",
}
# Laws whose name a definition in camel case comes to have. Functions of the sources keep such a name.
LAWS = "all_right is_state opened_with passes_at ready_held same_set".split()
APART.update({n: n + "_lem" for n in LAWS})
# Names in camel case, turned: a law of the same spelling gets `_lem`, as the library's do.
TURNED = set()


def is_ours(module, crates):
    parts = module.split(".")
    return parts[0] == "Rattle" and len(parts) > 1 and parts[1] in crates


def snake(name):
    """The name in snake case; one with a type among its parts stays."""
    if name in APART:
        return APART[name]
    parts = name.split("-")
    if len(parts) > 1 and all(re.fullmatch(r"[A-Z0-9]+", p) for p in parts):
        return "_".join(parts)
    if name[0].isupper() or any(p[:1].isupper() for p in parts):
        return name
    new = plain(name)
    return new + "_lem" if len(parts) > 1 and new in TURNED else new


def plain(name):
    return "_".join(re.sub(r"(?<=[a-z0-9])([A-Z])", lambda m: "_" + m[1].lower(), p) for p in name.split("-"))


def listed(braces):
    """The names in the braces of a `use`, each with what it is called here."""
    for item in braces.split(","):
        words = item.split()
        if words:
            yield words[0], words[-1]


def foreign(text, crates):
    """The names that a file has from the toolchain's library."""
    kept = set()
    for module, braces in USE.findall(text):
        if not is_ours(module, crates):
            kept.update(name for name, here in listed(braces))
    return kept


def imported(text, crates):
    """The names that a file has from the repository's own modules."""
    ours = set()
    for module, braces in USE.findall(text):
        if is_ours(module, crates):
            for name, here in listed(braces):
                ours.update((name, here))
    return ours


def generated(path):
    """Whether a file is a function's proof, whose other names are the toolchain's."""
    return "/proofs/" in path and os.path.basename(path) == "Proof.antt"


def comment_at(line, mark):
    at = line.find(mark)
    return len(line) if at < 0 else at


def respelled(text, change, mark):
    """The text with each name changed; in comments only names in camel case are."""
    lines = []
    for line in text.split("\n"):
        at = comment_at(line, mark)
        code, note = line[:at], line[at:]
        code = NAME.sub(lambda m: change(m[0]), code)
        note = NAME.sub(lambda m: change(m[0]) if "-" not in m[0] else m[0], note)
        lines.append(code + note)
    return "\n".join(lines)


def ghost(text, change):
    """The text of a source file with the names in its `ghost use` items and clauses changed."""
    return respelled(text, change, "//")


def defined(files, crates):
    """Every name with a dash or in camel case that stands in the repository's specifications and laws and is its own."""
    names = set()
    for path, text in files.items():
        if path.endswith(".antt") and not generated(path):
            kept = foreign(text, crates)
            names.update(n for n in NAME.findall(USE.sub(lambda m: m[2], text)) if snake(n) != n and n not in kept)
    return names


def changer(path, text, names, crates):
    kept = foreign(text, crates)
    if generated(path):
        ours = imported(text, crates) - kept
        return lambda n: snake(n) if n in ours else n
    if path.endswith(".antt"):
        return lambda n: n if n in kept else snake(n)
    return lambda n: snake(n) if n in names and n not in kept and n not in LAWS else n


def read(top):
    files = {}
    for folder, dirs, found in os.walk(os.path.join(top, "crates")):
        dirs[:] = sorted(d for d in dirs if d != "out")
        for f in sorted(found):
            if f.endswith((".antt", ".rt", ".edit")):
                with open(os.path.join(folder, f), encoding="utf-8") as it:
                    files[os.path.relpath(os.path.join(folder, f), top)] = it.read()
    return files


def paths_turned(text):
    for old, new in RENAMED_CRATES.items():
        text = re.sub(r"\bRattle\.%s\." % old, "Rattle.%s." % new, text)
        text = re.sub(r"(?<![\w:.])%s::" % old, new + "::", text)
    for crate in MOVED:
        text = text.replace("Rattle.%s.specs.laws" % crate, "Rattle.%s.proofs.laws" % crate)
    return text


def edit_turned(path, text):
    if path.split("/")[1] in MOVED:
        text = text.replace("file: specs/laws", "file: proofs/laws")
    return text


def move(top, old, new):
    os.makedirs(os.path.dirname(os.path.join(top, new)), exist_ok=True)
    subprocess.run(["git", "mv", old, new], cwd=top, check=True)


def move_laws(top, crate):
    """Moves specs/laws.antt and specs/laws/ to proofs/, with the lines that declare them."""
    base = "crates/%s/" % crate
    move(top, base + "specs/laws.antt", base + "proofs/laws.antt")
    move(top, base + "specs/laws", base + "proofs/laws")
    lib = os.path.join(top, base, "specs/Lib.antt")
    with open(lib, encoding="utf-8") as it:
        lines = it.read().split("\n")
    with open(lib, "w", encoding="utf-8") as it:
        it.write("\n".join(l for l in lines if l.strip() != "pub mod laws"))
    root = os.path.join(top, base, "proofs/Lib.antt")
    before = open(root, encoding="utf-8").read() if os.path.exists(root) else ""
    with open(root, "w", encoding="utf-8") as it:
        it.write(before + "pub mod laws\n")


def clashes(files, names, crates):
    for path, text in files.items():
        change = changer(path, text, names, crates)
        if generated(path):
            continue
        code = "\n".join(line[: comment_at(line, "--" if path.endswith(".antt") else "//")] for line in text.split("\n"))
        code = USE.sub(lambda m: m[2], code)
        turned = {}
        for n in set(NAME.findall(code)):
            turned.setdefault(change(n), set()).add(n)
        for new, olds in sorted(turned.items()):
            if len(olds) > 1 and path.endswith(".antt"):
                print(path, new, sorted(olds))
            elif len(olds) > 1 and re.search(r"[(,]\s*(mut )?%s:" % new, text):
                print(path, new, sorted(olds), "a parameter")


def main():
    words = sys.argv[1:]
    dry = "--clashes" in words
    top = next((w for w in words if not w.startswith("-")), ".")
    files = read(top)
    crates = set(os.listdir(os.path.join(top, "crates")))
    names = defined(files, crates)
    TURNED.update(plain(n) for n in names if "-" not in n)
    TURNED.update("accepted_first by_kind call_at has_value low_bytes same_list same_words".split())
    if dry:
        clashes(files, names, crates)
        return
    for path, text in files.items():
        change = changer(path, text, names, crates)
        new = respelled(text, change, "--") if path.endswith(".antt") else ghost(text, change) if path.endswith(".rt") else edited(text, names)
        new = edit_turned(path, paths_turned(new))
        if new != text:
            with open(os.path.join(top, path), "w", encoding="utf-8") as it:
                it.write(new)
    for old, new in RENAMED_CRATES.items():
        move(top, "crates/" + old, "crates/" + new)
        listing = os.path.join(top, "crates.txt")
        with open(listing, encoding="utf-8") as it:
            text = it.read()
        with open(listing, "w", encoding="utf-8") as it:
            it.write(re.sub(r"(?m)(?<![\w])%s(?![\w])" % old, new, text))
    for crate in MOVED:
        move_laws(top, crate)


def edited(text, names):
    """An edit's text, with the names in its lines `old:` and `new:` changed."""
    lines = []
    for line in text.split("\n"):
        if line.startswith(("old:", "new:")):
            line = line[:4] + NAME.sub(lambda m: snake(m[0]) if m[0] in names and m[0] not in LAWS else m[0], line[4:])
        lines.append(line)
    return "\n".join(lines)


main()
