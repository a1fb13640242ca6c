#!/usr/bin/env python3
"""Turns the names of this repository's own definitions and lemmas from words joined by hyphens to snake case.

    tools/respell.py [--try]

Run once, at the top, right after the kit's own port.py. Own names are what specs/ and proofs/ declare: definitions,
lemmas, fields, constructors, and what they bind. Names that the library declares, and those that Rattle makes for the
goals and the steps of a proof, keep their hyphens. Texts in quotes and comments keep their words. With --try it only says
which names would fall together: a name that it makes and that stood in the same file before, or the same made of two.
"""
import pathlib
import re
import sys

ROOT = pathlib.Path(__file__).resolve().parent.parent
NAME = r"[^\W\d][\w'′₀-₉]*(?:-[\w'′₀-₉]+)+"
WORD = re.compile(r"(?<![\w\-'·◌])" + NAME + r"(?![\w\-◌])")
PLAIN = re.compile(r"[^\W\d][\w'′₀-₉]*")
# What a line declares: at its start, or a field or a constructor in a block below it.
DECLARED = re.compile(r"^[ ]*(?:pub |abbrev |unfoldable |record |data |local )*(" + NAME + r")((?: " + PLAIN.pattern + r")*) (?::|\(|where)", re.M)
# Names that a term binds: after let, after λ, and in brackets before a colon.
BOUND = [re.compile(r"\blet (" + NAME + r")\b"), re.compile(r"λ ([^.]*)\."), re.compile(r"[({]([^(){}:]*) : ")]
CODE = {
    ".rt": re.compile(r'b?"(?:[^"\\]|\\.|\\\n)*"|b?\'(?:[^\'\\\n]|\\.[^\'\n]*)\'|//[^\n]*', re.S),
    ".antt": re.compile(r'"(?:[^"\\]|\\.)*"|(?:(?<=\s)|^)--(?=\s|$)[^\n]*', re.S | re.M),
}


def parts(text, kind):
    """The pieces of a file: (is it code, its text)."""
    at = 0
    for m in CODE[kind].finditer(text):
        yield True, text[at:m.start()]
        yield False, m.group(0)
        at = m.end()
    yield True, text[at:]


def files():
    for file in sorted(ROOT.glob("crates/*/*/**/*")):
        if file.suffix in CODE and "out" not in file.parts:
            yield file


def is_made(file):
    """Whether the file answers goals, so that names which Rattle makes stand in it."""
    return file.name in ("Answers.antt", "Invariants.antt", "Proof.antt")


def declared(file):
    """The names with hyphens that the file declares or binds."""
    text = "".join(piece for code, piece in parts(file.read_text(), ".antt") if code)
    for m in DECLARED.finditer(text):
        if not re.match(r"[^\n]* : goal\.", text[m.start():].lstrip("\n")):
            yield m.group(1)
    for pattern in BOUND:
        for m in pattern.finditer(text):
            yield from WORD.findall(m.group(1))
    if not is_made(file):
        # the left sides of clauses bind too
        for line in text.split("\n"):
            if " = " in line and not line.startswith(" "):
                yield from WORD.findall(line.split(" = ")[0])


def imported(text):
    """The names that a file takes from outside the repository."""
    own = {p.name for p in (ROOT / "crates").iterdir()}
    for m in re.finditer(r"use ([\w.·+]+)\.\{([^}]*)\}", text):
        parts_of = re.split(r"[.·]", m.group(1))
        if not (parts_of[0] == "Rattle" and parts_of[1] in own):
            for item in m.group(2).split(","):
                yield item.split(" as ")[-1].strip()


def main():
    only_try = "--try" in sys.argv[1:]
    own = set()
    for file in files():
        if file.suffix == ".antt":
            own.update(declared(file))
    made_by_rattle = re.compile(r"^(?:in|returns|loop|if|then|else|match|index|overflow_\w+|bounds|slice_bounds|offset_bounds|invariant|decreases|way_\w+|in_ok|in_err)-")
    for name in sorted(own):
        if made_by_rattle.match(name):
            print("like a name that Rattle makes:", name)
    count = {}
    for file in files():
        text, seen, made, out = file.read_text(), set(), {}, []
        taken = set(imported(text))
        for code, piece in parts(text, file.suffix):
            if code:
                seen.update(PLAIN.findall(WORD.sub(" ", piece)))

                def turn(m):
                    name = m.group(0)
                    before = piece[max(0, m.start() - 5):m.start()]
                    if name not in own or name in taken or before.endswith("goal."):
                        return name
                    if is_made(file) and re.match(r"^[ ]*(?:abbrev )?(?:pub )?$", piece[:m.start()].split("\n")[-1]) and f"goal.{name}" in text:
                        return name
                    if is_made(file) and f"goal.{name}\n" in text:
                        return name
                    made.setdefault(name.replace("-", "_"), set()).add(name)
                    return name.replace("-", "_")
                piece = WORD.sub(turn, piece)
            out.append(piece)
        for name, olds in sorted(made.items()):
            count[name] = count.get(name, 0) + 1
            if name in seen or len(olds) > 1:
                print(f"falls together: {file.relative_to(ROOT)}: {name}")
        if not only_try and "".join(out) != text:
            file.write_text("".join(out))
    print(len(count), "names")


main()
