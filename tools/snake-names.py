#!/usr/bin/env python3
"""Spells the repository's own definitions and lemmas in snake case: run once, at the top, right after the kit's port.py.

Every name with a dash or a capital inside that a file of specs/ or proofs/ declares, as a definition, a lemma, a field or a
helper below `where`, is turned, wherever it is cited: in .antt files, in the clauses of .rt files, in must-fail edits, in the
rule edits and their refutations, and between backticks in the pages. Types, facts and modules keep their capitals. Names
that only a Proof.antt declares stay, since Rattle made most of them. It stops, and writes nothing, where two names would
fall together.
"""
import collections
import glob
import re
import subprocess
import sys

WORD = r"[^\s(){}.;,@\"«»\[\]\\|`]+"
TOKEN = re.compile(r"\"(?:[^\"\\]|\\.)*\"|" + WORD)
DECLARED = re.compile(r"\s*(?:abbrev |unfoldable )?(?:pub )?(" + WORD + r") :(?!:)")
# Where a lemma would have the name of the definition that it is about, it gets `_lem`; two definitions that would fall
# together get words of their own.
LEMMAS = """both-taken first-failing first-that is-ready line-at line-held lines-held lines-of no-demand no-records one-refused
played-on read-entries read-lines read-log read-records rounded-up with-entry with-horizon with-placed""".split()
SPECIAL = {name: name.replace("-", "_") + "_lem" for name in LEMMAS} | {
    "getD-held": "get_or_held",
    "getD-padded": "get_or_padded",
    "logRead": "log_computed",
    "tableRead": "table_computed",
    "notAdmitted": "not_admitted_at",
}
# Lemmas that the kit's port.py has turned already: the file that declares each.
TURNED = {
    "read_table": "crates/laws/proofs/Admitted.antt",
    "row_back": "crates/laws/proofs/LentRows.antt",
    "settled_at": "crates/laws/proofs/Run.antt",
    "taken_next": "crates/booth/proofs/Taking.antt",
}
# A library's name too, and ours in one file alone.
STAYS = {"not-false"}
# Pairs that never meet in one file.
APART = {"desk_text", "files_verdict", "table_verdict", "goes_on", "own_tick", *TURNED}


def read(path):
    with open(path, encoding="utf-8", newline="") as it:
        return it.read()


def write(path, text):
    with open(path, "w", encoding="utf-8", newline="") as it:
        it.write(text)


def snake(name):
    if name in SPECIAL:
        return SPECIAL[name]
    return re.sub(r"(?<=[a-z0-9])([A-Z])", r"_\1", name.replace("-", "_")).lower()


def kept_as_type(name):
    return name[0].isupper()


def files(*patterns):
    return sorted(p for it in patterns for p in glob.glob(it, recursive=True) if "/out/" not in p and "/target/" not in p)


ANTT = files("crates/*/specs/**/*.antt", "crates/*/proofs/**/*.antt")
RT = files("crates/*/src/**/*.rt")
EDITS = files("crates/*/must-fail/*.edit", "crates/laws/rule-edits/*")
PAGES = files("README.md", "docs/*.md", "docs/landings/*.md", "examples/*.md")


def names():
    where = collections.defaultdict(set)
    for path in ANTT:
        for line in read(path).split("\n"):
            m = DECLARED.match(line)
            if m:
                where[m.group(1)].add(path)
    return where


def turned(declared):
    out = {}
    for name, paths in declared.items():
        own = [p for p in paths if not p.endswith("/Proof.antt")]
        if own and not kept_as_type(name) and snake(name) != name and name[0].isalpha() and name not in STAYS:
            out[name] = snake(name)
    return out


def imported():
    """Names that a file brings in from a library, and not from a crate of the repository."""
    crates = {p.split("/")[1] for p in ANTT + RT}
    out = set()
    for path in ANTT + RT:
        for m in re.finditer(r"use ([\w.·-]+)\.\{([^}]*)\}", read(path)):
            head = m.group(1).split(".")
            if not (head[0] == "Rattle" and len(head) > 1 and head[1] in crates):
                out |= {n.strip().split(" as ")[0] for n in m.group(2).split(",")}
    return out


def collisions(declared, new):
    taken = collections.defaultdict(set)
    for name in declared:
        taken[new.get(name, name)].add(name)
    library = imported()
    said = [f"{to}: {' '.join(sorted(of))}" for to, of in sorted(taken.items()) if len(of) > 1 and any(n in new for n in of) and to not in APART]
    said += [f"{n} is also a library's" for n in sorted(new) if n in library]
    said += [f"{n} becomes {new[n]}, which is a library's" for n in sorted(new) if new[n] in library]
    for path in ANTT + RT:
        tokens = set(TOKEN.findall(re.sub(r"(--|//).*", "", read(path))))
        said += [f"{path}: {new[n]} stands there already, beside {n}" for n in sorted(tokens & set(new)) if new[n] in tokens and "-c" not in sys.argv]
    return said


def lemmas_turned():
    """The lemmas that port.py has turned to the names of their definitions, in the files that declare or import them."""
    for name, home in TURNED.items():
        module = "Rattle." + home[len("crates/") : -len(".antt")].replace("/", ".")
        for path in ANTT:
            text = read(path)
            cited = re.search(re.escape(module) + r"\.\{[^}]*\b" + name + r"\b", text)
            if path == home or cited:
                of_home = re.compile(r"(?<![\w.·-])" + name + r"(?![\w'-])")
                yield path, of_home.sub(name + "_lem", text)


def antt(text, new):
    """Turns code, and in comments what stands between backticks."""
    out = []
    for line in text.split("\n"):
        at = line.find("--")
        while at > 0 and line[at - 1] not in " ":
            at = line.find("--", at + 2)
        code, comment = (line, "") if at < 0 else (line[:at], line[at:])
        out.append(TOKEN.sub(lambda m: new.get(m.group(0), m.group(0)), code) + quoted(comment, new))
    return "\n".join(out)


def quoted(text, new):
    return re.sub(r"`[^`\n]*`", lambda m: TOKEN.sub(lambda w: new.get(w.group(0), w.group(0)), m.group(0)), text)


def rt(text, new):
    out = []
    for line in text.split("\n"):
        at = line.find("//")
        code, comment = (line, "") if at < 0 else (line[:at], line[at:])
        out.append(TOKEN.sub(lambda m: new.get(m.group(0), m.group(0)), code) + quoted(comment, new))
    return "\n".join(out)


def edit(text, new):
    return "\n".join(antt(l, new) if re.match(r"(old|new):", l) else quoted(l, new) for l in text.split("\n"))


def main():
    declared = names()
    new = turned(declared)
    said = collisions(declared, new)
    if said:
        print("\n".join(said))
        if "--force" not in sys.argv:
            return 1
    n = 0
    if "--dry" not in sys.argv:
        for path, text in lemmas_turned():
            write(path, text)
    for paths, turn in ((ANTT, antt), (RT, rt), ([p for p in EDITS if p.endswith(".edit")], edit), ([p for p in EDITS if p.endswith(".refuted")], antt), (PAGES, quoted)):
        for path in paths:
            old = read(path)
            text = turn(old, new)
            if text != old:
                n += 1
                if "--dry" not in sys.argv:
                    write(path, text)
    print(f"{len(new)} names turned in {n} files")
    if "--dry" not in sys.argv:
        for crate in sorted(glob.glob("crates/*/src")):
            subprocess.run(["rt", "fmt"], cwd=crate[: -len("/src")], check=True, stdout=subprocess.DEVNULL, stderr=subprocess.DEVNULL)
    return 0


if __name__ == "__main__":
    sys.exit(main())
