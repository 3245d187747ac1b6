#!/usr/bin/env python3
"""Brings the repository's own definitions, lemmas and variables to snake case.

Run once, at the top, on a tree that `port.py` has been over. A name is respelled that a file of specs/ or proofs/ defines
or binds, unless the library has it too, or it is the name of a goal. That is done in the code of .antt files, in the clauses
of .rt files, in must-fail edits, and between backticks in comments and pages. Strings, inputs, outputs, and the names of
functions and exported symbols stay as they are.
"""
import os
import re
import sys

OURS = {
    "algebra", "bit_polys", "byte_polys", "casebook", "checks", "domains", "integers", "polynomial_domains", "polynomials",
    "tasks", "wording",
}

# Lower camel-case names of this repository's definitions.
CAMEL = {
    "allDigits": "all_digits",
    "complaintLine": "complaint_line",
    "decimalValue": "decimal_value",
    "digitValue": "digit_value",
    "euclidLine": "euclid_line",
    "fromList": "from_list",
    "fromWord": "from_word",
    "lastFrom": "last_from",
    "littleEndian": "little_endian",
    "otherFrom": "other_from",
    "pairBytes": "pair_bytes",
    "replyLines": "reply_lines",
    "startsAt": "starts_at",
    "toWord": "to_word",
    "twoDigits": "two_digits",
}

# A lemma that would get the name of another definition beside it, and one whose capital stands for a function.
APART = {"starts-at": "starts_at_an_item", "D-rest": "derivative_rest"}

WORD = r"[\w'≤≡·«»₀-₉]"
NAME = re.compile(rf"(?<![\w'≤≡·«»◌-]){WORD}+(?:-{WORD}+)*(?![\w'-])")
COMMENT = re.compile(r"(?:^|(?<=\s))--(?=\s|$)")
STRING = re.compile(r'b?"(?:[^"\\]|\\.)*"|b?\'(?:[^\'\\]|\\.)\'|//[^\n]*')


def files(top):
    for folder, folders, names in os.walk(top):
        folders[:] = [f for f in folders if f not in (".git", "target", "out", "second")]
        for name in names:
            yield os.path.join(folder, name)


def read(path):
    with open(path, encoding="utf-8") as f:
        return f.read()


def uncommented(line):
    m = COMMENT.search(line)
    return line[: m.start()] if m else line


def own_names(top):
    """The hyphened names that this repository defines or binds, but for those of the library and of goals."""
    bound, apart = set(), set()
    for path in files(os.path.join(top, "crates")):
        if not path.endswith((".antt", ".rt")):
            continue
        text = read(path)
        for m in re.finditer(r"use ([\w.+·-]+)\.\{([^}]*)\}", text):
            parts = m.group(1).split(".")
            if parts[0] != "Rattle" or parts[1] not in OURS:
                apart.update(item.strip().split(" as ")[0] for item in m.group(2).split(","))
        if not path.endswith(".antt"):
            continue
        for line in map(uncommented, text.split("\n")):
            m = re.match(r"\s*(?:pub |abbrev |unfoldable )*(\S+) : (?:goal|need|given)\.", line)
            if m:
                apart.add(m.group(1))
                continue
            m = re.match(r"\s*(?:pub |abbrev |unfoldable )*([^\s:(){}]+(?: [^\s:(){}]+)*) : ", line)
            if m and not line.strip().startswith("use"):
                bound.update(m.group(1).split())
            for pattern in (r"[({]([^(){}:]+) :", r"λ ([^.()]+)\.", r"let ([^\s:=]+)"):
                for m in re.finditer(pattern, line):
                    bound.update(m.group(1).split())
    return {n for n in bound - apart if "-" in n and NAME.fullmatch(n)}


class Respelling:
    def __init__(self, own):
        self.own = own

    def name(self, m):
        n = m.group(0)
        if n in APART:
            return APART[n]
        if n in CAMEL:
            return CAMEL[n]
        if n in self.own:
            return "_".join(CAMEL.get(part, part) for part in n.split("-"))
        return n

    def code(self, text):
        return NAME.sub(self.name, text)

    def page(self, text):
        return re.sub(r"`[^`\n]*`", lambda m: self.code(m.group(0)), text)

    def antt(self, text):
        lines = []
        for line in text.split("\n"):
            kept = uncommented(line)
            lines.append(self.code(kept) + self.page(line[len(kept):]))
        return "\n".join(lines)

    def rt(self, text):
        out, last = [], 0
        for m in STRING.finditer(text):
            out.append(self.code(text[last:m.start()]))
            kept = m.group(0)
            out.append(self.page(kept) if kept.startswith("//") else kept)
            last = m.end()
        out.append(self.code(text[last:]))
        return "".join(out)


def main():
    top = sys.argv[1] if len(sys.argv) > 1 else "."
    r = Respelling(own_names(top))
    turns = {".antt": r.antt, ".rt": r.rt, ".edit": r.rt, ".md": r.page}
    for path in files(top):
        turn = turns.get(os.path.splitext(path)[1])
        if turn is None:
            continue
        text = read(path)
        made = turn(text)
        if made != text:
            with open(path, "w", encoding="utf-8") as f:
                f.write(made)


main()
