#!/usr/bin/env python3
"""Replaces the crates below one by stubs, in a scratch clone, so that it can be checked at once:

    stub_crates.py CLONE CRATE..

In CLONE each function of these crates gets a body that calls a function of C which never returns, as
its contract says. So its contract holds, and the proofs of functions go, with the lemmas that no other
file imports. What a crate above can see stays: types, contracts and definitions. `RT_ALLOW_C=1 rt
check` then proves the crates above them against the same contracts, an hour before the whole gate has
proved those below. Nothing is lost by a mistake here: `rt ci` refuses each crate that declares C.
"""

import argparse
import re
import shutil
from pathlib import Path

BLANKED = re.compile(
    r'//[^\n]*|b?r(#*)".*?"\1|b?"(?:\\.|[^"\\])*"|b?\'(?:\\(?:x..|u\{[^}]*\}|.)|[^\'\\\n])\'', re.S
)
HEAD = re.compile(r"\bfn\s+[a-z_][a-z_0-9]*")
CLAUSE = re.compile(r"(?:requires|ensures)\*?(?:\s+\w+)?\s*(?=\{)")
# What a stub need not have: tactics name lemmas, and no calls are left to be in a cycle.
ATTRIBUTE = re.compile(r"^ *#\[(?:tactic|cycle)\([^\]]*\)\]\n", re.M)
PROOFS = {"Answers.antt", "Invariants.antt", "Proof.antt"}


def blanked(text):
    """The text with comments, strings and characters blanked out, as long as before."""
    return BLANKED.sub(lambda found: re.sub(r"[^\n]", " ", found[0]), text)


def end_of(plain, start):
    """Where the bracket ends that opens here."""
    depth = 0
    for place in range(start, len(plain)):
        depth += (plain[place] in "{([") - (plain[place] in "})]")
        if not depth:
            return place + 1
    raise SystemExit(f"no bracket ends that of {plain[start:start + 40]!r}")


def body_after(plain, place):
    """The body of the function whose name ends here, and where to go on; `None` without a body."""
    place = end_of(plain, plain.index("(", place))
    while plain[place] not in ";{":
        clause = CLAUSE.match(plain, place)
        opens = clause.end() if clause else place
        place = end_of(plain, opens) if clause or plain[place] in "([" else place + 1
    end = end_of(plain, place) if plain[place] == "{" else place
    return (place if plain[place] == "{" else None), end


def stubbed(text, crate):
    """The text with other bodies, and how many those are."""
    plain, parts, last, count = blanked(text), [], 0, 0
    head = HEAD.search(plain)
    while head:
        body, end = body_after(plain, head.end())
        if body is not None:
            parts += [text[last:body], f"{{ crate::never::never_{crate}(); unreachable!() }}"]
            last, count = end, count + 1
        head = HEAD.search(plain, end)
    return ATTRIBUTE.sub("", "".join([*parts, text[last:]])), count


def stub_sources(folder):
    """Replaces the bodies of the functions of a crate. Returns whether it has functions."""
    crate, texts = folder.name, {file: file.read_text() for file in folder.glob("src/**/*.rt")}
    found = {file: stubbed(text, crate) for file, text in texts.items()}
    if not sum(count for _, count in found.values()):
        return False
    for file, (text, _) in found.items():
        file.write_text(text)
    root = folder / "src/lib.rt"
    root.write_text(re.sub(r"(#!\[tactic\(auto[^\n]*\n)", r"\1\nmod never;\n", root.read_text(), count=1))
    declared = f"unsafe extern \"C\" {{\n    pub safe fn never_{crate}()\n        ensures {{ ⊥ }};\n}}\n"
    (folder / "src/never.rt").write_text(f"//! A call that never returns.\n\n{declared}")
    (folder / "c").mkdir(exist_ok=True)
    (folder / "c/never.c").write_text(f"void never_{crate}(void) {{ for (;;) {{}} }}\n")
    return True


def drop_proofs(folder):
    """Removes the proofs of functions."""
    for place in sorted(folder.glob("proofs/**/"), reverse=True):
        if place.is_dir() and PROOFS & {file.name for file in place.iterdir()}:
            shutil.rmtree(place)


def imported(crate, files):
    """The lemma files of a crate that these files import, and those that they import in turn."""
    use = re.compile(rf"Rattle\.{crate.name}\.proofs\.(\w+(?:\.\w+)*)")
    found, left = set(), list(files)
    while left:
        names = set(use.findall(left.pop().read_text())) - found
        found |= names
        paths = (crate / "proofs" / f"{name.replace('.', '/')}.antt" for name in names)
        left += [path for path in paths if path.is_file()]
    return found


def drop_lemmas(root, crate):
    """Removes the lemma files of a crate that nothing outside its proofs imports."""
    proofs = crate / "proofs"
    files = [file for kind in ("antt", "rt") for file in root.glob(f"crates/*/*/**/*.{kind}")]
    kept = imported(crate, [file for file in files if "out" not in file.parts and proofs not in file.parents])
    for file in proofs.glob("*.antt"):
        if file.name != "Lib.antt" and file.stem not in kept:
            file.unlink()
            lib = proofs / "Lib.antt"
            lib.write_text(re.sub(rf"^(pub )?mod {re.escape(file.stem)}\n", "", lib.read_text(), flags=re.M))


def main():
    parser = argparse.ArgumentParser(description=__doc__.split("\n")[0])
    parser.add_argument("clone", type=Path)
    parser.add_argument("crates", nargs="+")
    words = parser.parse_args()
    for name in words.crates:
        crate = words.clone.resolve() / "crates" / name
        if stub_sources(crate):
            drop_proofs(crate)
            drop_lemmas(words.clone.resolve(), crate)


if __name__ == "__main__":
    main()
