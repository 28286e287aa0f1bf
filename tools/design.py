#!/usr/bin/env python3
"""Counts the places of each point of docs/DESIGN-PASS.md in crates/*/src of the tree that is named, or of this one.

    python3 tools/design.py [FOLDER] [-v]     -v lists the places
"""
import re
import sys
from collections import defaultdict
from pathlib import Path

COMMENT = re.compile(r'//[^\n]*')
FUNCTION = re.compile(r'fn (\w+)(?:<[^>]*>)?\(([^)]*)\)(?:\s*->\s*[^\n{]+)?((?:\s+(?:requires|ensures)[^\n]*)*)')

# a name, the files that it is looked for in, and what is looked for
POINTS = [
    ('1 an answer with its refusal as a field', '', r'^    pub(?:\(crate\))? refusal: \w+,'),
    ('1 a flag beside the value that it is of', '', r'^    pub(?:\(crate\))? (?:found|adjacent|taken|delivered|failed|numbers?): bool,'),
    ('1 a function that answers the number of a refusal', '', r'fn \w*(?:_refusal|_fault)\([^)]*\) -> usize'),
    ('1 a call that answers a refusal and nothing else', '', r'fn \w+\([^)]*\) -> Refusal\b'),
    ('1 a number that stands for a refusal or a kind', 'refusals|pick', r'^    pub const [A-Z_]+: usize = \d+;'),
    ('1 a test of such a number', '', r'if [\w.]*(?:refusal|number|\br|\bq) (?:!=|==) 0 \{'),
    ('1 a number or a length that means none', '', r'if \w+\.hops == 0 \{|first == 0|\w+ < \w+\.len\(\) / 8 \{'),
    ('2 a function of a pair that differs in a word, a type or a constant', 'links|summary|desk_line|room/src/answers|path/src/(?:hops|readings|walks|writings)|build|finder|pick',
     r'^(?:pub )?(?:pub\(crate\) )?fn (?:mark|clear|put|mark_link|clear_link|mark_server|clear_server|with_bit|without_bit|question_of|tree_question_of|no_\w+)\b'),
    ('3 a loop that counts by hand', '', r'^\s+(?:\'\w+: )?while [^\n]* \{'),
    ('4 a copy, a conversion or a text by hand', '', r'^(?:pub )?(?:pub\(crate\) )?fn (?:copy_in|wide|names_earlier|earlier_item)\(|\b(\w+)\[[^\]\n]*\],\s+\1\[[^\]\n]*\],\s+\1\[|low\(number / 256\)'),
    ('6 a buffer with its length beside it', '', r'pub struct \w+ \{\n(?:[^}]*\n)?    pub(?:\(crate\))? (?:bytes|servers): \[[^\]]*\],\n[^}]*?(?:length|count): usize|pub struct \w+ \{\n(?:[^}]*\n)?    pub count: usize,\n[^}]*?: \['),
    ('6 a list searched or copied by hand', '', r'while \w+ < (?:text|list|table|servers|word|bytes|summary|met|b|numbers)\.len\(\)'),
    ('7 a switch on which step to run, a table of functions', '', r'match \w+ \{\s*0 =>|fn\(\w+\) ->'),
]


def sources(top):
    for path in sorted(Path(top).glob('crates/*/src/**/*.rt')):
        yield str(path.relative_to(top)), COMMENT.sub('', path.read_text())


def places(top, files, pattern):
    found = []
    for path, text in sources(top):
        if not re.search(files, path):
            continue
        for match in re.finditer(pattern, text, re.M | re.S):
            line = text.count('\n', 0, match.start()) + 1
            found.append(f'{path}:{line}: {" ".join(match.group(0).split())[:90]}')
    return found


def facts(top):
    """The facts that stand in what three functions or more ask, and the functions of seven parameters or more."""
    asked, wide = defaultdict(list), []
    for path, text in sources(top):
        for name, parameters, clauses in FUNCTION.findall(text):
            if len([p for p in parameters.split(',') if p.strip()]) >= 7:
                wide.append(f'{path}: {name}')
            for clause in re.findall(r'requires (?:\w+ )?\{([^\n]*)\}', clauses):
                for fact in clause.split(' × '):
                    asked[fact.strip(' ()')].append(f'{path}: {name}')
    return [f'{fact}: {len(at)}' for fact, at in asked.items() if len(at) >= 3], wide


def positional(top):
    return [str(p.relative_to(top)) for p in sorted(Path(top).glob('crates/*/proofs/**/Proof.antt'))]


def main():
    args = [a for a in sys.argv[1:] if a != '-v']
    top = args[0] if args else Path(__file__).resolve().parent.parent
    rows = [(name, places(top, files, pattern)) for name, files, pattern in POINTS]
    repeated, wide = facts(top)
    rows.append(('5 a fact that three functions or more ask', repeated))
    rows.append(('5 a function of seven parameters or more', wide))
    rows.append(('8 a proof that answers its goals by their order', positional(top)))
    for name, found in sorted(rows, key=lambda row: row[0][0]):
        print(f'{len(found):4}  {name}')
        if '-v' in sys.argv:
            print(''.join(f'        {place}\n' for place in found), end='')


main()
