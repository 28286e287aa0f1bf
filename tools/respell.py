#!/usr/bin/env python3
"""Respells this repository's own names of specs/ and proofs/ as today's Rattle spells them.

usage: tools/respell.py [--check]     at the top of a checkout in which port.py has run; --check writes nothing, and says which names fall together

Words are in snake case: `linkRefusal` becomes `link_refusal`. A dash stays in a law's name where it joins two names of
definitions, as in `length-filled`; elsewhere it becomes `_`. A name with a dash that would fall together with another keeps its
dash. Names of the library, of Rattle's own making and of src/ stay as they are, but that a function's name has no dash.
"""

import collections
import os
import re
import sys

WORD = re.compile(r'[^\s(){}.;,@"«»\[\]]+')
QUIET = re.compile(r'"(?:[^"\\\n]|\\.)*"|(?<![^\s(){}.;,@])--[^\n]*')
USE = re.compile(r"^(\s*(?:ghost )?(?:pub )?use )([\w.'+-]+?)(?:\.\{([^}]*)\}|((?: as [^\s;]+)?))(;?)$")
DECLARED = re.compile(r"^\s*(?:\| )?(?:(?:pub|abbrev|unfoldable|data|record|mutual|private|infix[lr]? \d+)\s+)*([^\s(){}.;,@\":]+)(?:\s+[({].*)?\s*:\s")
PLAIN = "length get_or set take drop map reverse replicate sum append min max mod div mul add sub pow suc zero one cond not and or eqb ltb leb true false".split()
# laws that port.py had turned to what is now a definition's name
LAWS = {n: n + "_lem" for n in ("same_word", "none_before", "in_order", "in_kept", "part_lies")}
# the theorem on one function, in the two files where its neighbours keep their dashes
DASHED = {("wrong/specs/Fill.antt", "digits_of"): "digits-of", ("wrong/proofs/Fill.antt", "digits_of"): "digits-of"}
OPERATORS = {"or-else": "or_else", "◌or-else◌": "◌or_else◌"}


def snake(word):
    word = re.sub(r"(?<=[a-z0-9])([A-Z]+)(?=[^a-zA-Z]|$)", lambda m: "_" + m[1].lower(), word)
    return re.sub(r"(?<=[a-z0-9])([A-Z])", lambda m: "_" + m[1].lower(), word)


def spans(text, antt):
    """The parts of a file in which names are turned."""
    if antt:
        at = 0
        for m in QUIET.finditer(text):
            yield at, m.start()
            at = m.end()
        yield at, len(text)
        return
    for m in re.finditer(r"ghost use [^;]*;", text):
        yield m.start(), m.end()
    for m in re.finditer(r"(?:requires|ensures|ghost)\b[^\n{;]*\{", text):
        depth, i = 1, m.end()
        while depth and i < len(text):
            depth += {"{": 1, "}": -1}.get(text[i], 0)
            i += 1
        yield m.end(), i - 1


class Repository:
    def __init__(self, root):
        self.root = root
        self.met = collections.defaultdict(lambda: collections.defaultdict(set))
        self.crates = {c for c in os.listdir(os.path.join(root, "crates"))}
        self.files = {}
        for folder, dirs, names in os.walk(os.path.join(root, "crates")):
            dirs[:] = sorted(d for d in dirs if d != "out")
            for n in sorted(names):
                if n.endswith((".antt", ".rt")):
                    p = os.path.join(folder, n)
                    with open(p, encoding="utf-8") as f:
                        self.files[p] = f.read()
        self.library, self.specs, self.laws, self.functions = set(), set(), set(), set()
        self.look()

    def own(self, path):
        parts = path.split(".")
        return parts[0] == "Rattle" and len(parts) > 1 and parts[1] in self.crates

    def look(self):
        for p, text in self.files.items():
            antt = p.endswith(".antt")
            if not antt:
                self.functions.update(re.findall(r"\bfn (\w+)", text))
            for line in text.split("\n"):
                m = USE.match(line)
                if m:
                    if not self.own(m[2]):
                        for it in (m[3] or "").split(","):
                            self.library.add(it.strip().split(" as ")[0])
                    continue
                if not antt:
                    continue
                m = DECLARED.match(QUIET.sub("", line))
                if m and re.match(r"[a-z+]|[A-Z]\w*-", m[1]):
                    (self.specs if "/specs/" in p else self.laws).add(m[1])

    def spelling(self):
        """The new spelling of each name that is declared here."""
        names = {snake(n) for n in self.specs if "-" not in n} | self.functions | set(PLAIN)
        declared, new = self.specs | self.laws, {}
        for n in sorted(declared):
            if n.endswith("-spec"):
                new[n] = n.replace("-", "_")
                continue
            parts = n.split("-")
            said = snake(parts[0])
            for i, part in enumerate(parts[1:], 1):
                left, right = said.split("-")[-1], "_".join(snake(q) for q in parts[i:])
                joins = n not in self.specs and left in names and (right in names or snake(part) in names)
                said += ("-" if joins else "_") + snake(part)
            new[n] = said
        taken = collections.Counter(new.values())
        for n, s in new.items():
            if "-" in n and taken[s] > 1:
                new[n] = n
        self.taken = set(new.values())
        return {n: s for n, s in new.items() if n != s}

    def turned(self, path, text, new):
        out, at = [], 0
        for a, b in sorted(spans(text, path.endswith(".antt"))):
            if a < at:
                continue
            out.append(text[at:a])
            out.append(self.part(text, a, b, new, path))
            at = b
        out.append(text[at:])
        return "".join(out)

    def part(self, text, a, b, new, path):
        def one(m):
            w = m[0]
            said = turn(w, a + m.start())
            self.met[path][said].add(w)
            return said

        def turn(w, start):
            if w in OPERATORS:
                return OPERATORS[w]
            dotted = start > 1 and text[start - 1] == "." and not text[start - 2].isspace()
            short = path.split("/crates/")[-1]
            if not dotted and w in LAWS and "/proofs/" in short:
                return LAWS[w]
            if not dotted and (short, w) in DASHED:
                return DASHED[short, w]
            under = w.replace("-", "_")
            made = "-" in w and (under in self.functions or re.sub(r"\d+$", "", under) in self.functions)
            if made and dotted and path.endswith("/Proof.antt"):
                return under
            if w in self.library:
                return w
            if w in new:
                return new[w]
            if w in self.specs | self.laws:
                return w
            if (made or re.search("-(kinds|reads|lts)$", w)) and under not in self.taken:
                return under
            return w

        return WORD.sub(one, text[a:b])


def edits(root):
    for folder, _, names in sorted(os.walk(os.path.join(root, "crates"))):
        for n in sorted(names):
            if n.endswith(".edit"):
                p = os.path.join(folder, n)
                with open(p, encoding="utf-8") as f:
                    yield p, f.read()


def edited(r, path, whole, text, new):
    """A text of a must-fail edit, with what port.py turns of definitions, and this script's names."""
    target = re.search(r"(?m)^file: (.*)$", whole)[1]
    if not target.endswith(".antt"):
        return text
    for old, say in (("getD", "get_or"), ("leb ", "leb "), ("_\u2237_", "\u25cc\u2237\u25cc")):
        text = re.sub(rf"(?<![\w'-]){old}(?![\w'-])" if old[0] != "_" else re.escape(old), say, text)
    while True:
        t = re.sub(r"\((\w+(?:\.\w+)*) \.(\w+)\)", r"\1.\2", text)
        t = re.sub(r"(?<=[\w)]) \.(\w+)", r".\1", t)
        if t == text:
            break
        text = t
    declared = r.specs | r.laws
    text = WORD.sub(lambda m: snake(m[0]) if re.match("[a-z]+[A-Z]", m[0]) and snake(m[0]) in declared else m[0], text)
    return r.part(text, 0, len(text), new, os.path.join(os.path.dirname(os.path.dirname(path)), target))


def main(argv):
    root = os.path.dirname(os.path.dirname(os.path.abspath(__file__)))
    r = Repository(root)
    new = r.spelling()
    for p, text in r.files.items():
        t = r.turned(p, text, new)
        if "--check" not in argv and t != text:
            with open(p, "w", encoding="utf-8") as f:
                f.write(t)
    for p, text in edits(root):
        t = re.sub(r"(?m)^((?:old|new): )(.*)$", lambda m: m[1] + edited(r, p, text, m[2], new), text)
        if "--check" not in argv and t != text:
            with open(p, "w", encoding="utf-8") as f:
                f.write(t)
    for p, words in r.met.items():
        for said, olds in words.items():
            if len(olds) > 1:
                print("together:", os.path.relpath(p, root), said, sorted(olds))
    if "--table" in argv:
        for n, s in sorted(new.items()):
            print(n, s)
    print(f"{len(new)} names")


if __name__ == "__main__":
    main(sys.argv[1:])
