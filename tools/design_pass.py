#!/usr/bin/env python3
"""design_pass.py [--list] [--markdown] [--other-way] [TREE | COMMIT]: counts the places of docs/DESIGN-PASS.md, point by point.

TREE is the repository that the script stands in if nothing is said; a COMMIT of it is taken out by `git archive`. It goes by text:
crates/*/src/**/*.rt for the points 1 to 7, crates/*/proofs/**/*.antt for point 8. Each sort of place has one rule, which is printed.
--list       each place as path:line and its text, behind how many are in which crate
--markdown   the same counts as a table
--other-way  the points 1 to 3 again, by lines and uses, without looking for declarations or brackets
A place stands under each sort that finds it, so sorts overlap. A total is the sum of its sorts but for those ASIDE, which are no old
form by themselves and show how much there is.
"""
import bisect
import collections
import glob
import io
import os
import re
import subprocess
import sys
import tarfile
import tempfile

ASIDE = ('3 for', '7 variants')
INTEGER = r'(?:u8|u16|u32|u64|usize)'
NUMBER = r"(?:0x[\da-fA-F_]+|\d[\d_]*|b?'[^']+'|(?:\w+::)*[A-Z][A-Z0-9_]+)"
VARIANT = r'(?:\w+::)*[A-Z]\w*[a-z0-9]\w*::[A-Z]\w*'
# Names of numbers that stand for cases: their own, the papers' parts that do, letters of the programs.
NUMBERS = r'(?:kind|mark|code|which|letter|verb|tag|reason|config|memattr|sh|mtcfg|shcfg|alloccfg|instcfg|privcfg|tg|ttl|how|place|cs|end)'
LENGTHS = r'(?:len|length|n|m|used|count|size|rows|words|bytes|slots|filled|most|lent)'
ASKED = r'(?:\b%s(?:\(\w+\)|_of\([^()]*\))?|\banswer\[\w+\]|\bw\[\d+\])\s*[!=]=\s*%s|[!=]=\s*(?:kinds|marks)::' % (NUMBERS, NUMBER)
EQUALITY = r'same(_\w+)?|equal|eq|ne|is_same|less|lesser|greater|before|cmp|min|max|changed'
COPYING = r'copy\w*|clone|gather|spread|unsplit'
CONVERSION = r'bit(_of)?|digit|wide|word_at|store_at|joined|record_of|from_\w+|to_\w+|features_of|bits_of|\w*_number|number|hex|decimal|byte_at|words'
TELLS = r'\b(?:text::\w+|say|said|told|one|two|three|listed)\(\s*&mut \*?\w+,\s*b"'
KEYWORDS = 'as break const continue else enum fn for if in let loop match mod mut return self struct while true false bool u8 u16 u32 u64 usize'.split()
# What no rule finds: where, a pattern that stands there as long as the place does, what is meant.
BY_HAND = [
    ('inspect/src/args.rt', r'pub queue: usize', 'a place on the command line, 0 for a file that is not given; so table and events'),
    ('commands/src/lib.rt', r'pub tg: u64', 'TG 0: no range, so num, scale, ttl and ttl128 do not count'),
    ('commands/src/decoding.rt', r'_ => CODES', 'the place of a code that is none is their number'),
    ('combining/src/lib.rt', r'const PLACES: \[u8; 16\]', '8 for a MemAttr that has no place'),
    ('interface/src/answers.rt', r'fn reason_in', '0 where no error was raised'),
    ('interface/src/answers.rt', r'fn slot_in', '0 where no error was raised'),
    ('interface/src/lib.rt', r'pub words: \[u64; 8\]', 'eight words whose meaning goes by the call'),
    ('writer/src/fields.rt', r'fn by_id\(', 'sixteen words, each field at its number'),
    ('writer/src/encoding.rt', r'put\(c\.lo, c\.hi, 63, 32, d\[1\]\)', 'fields by their numbers, d[0] to d[14]'),
    ('night/src/list.rt', r'pub verbs: \[u8; CALLS\]', 'letter 0 where there is no call'),
    ('verdicts/src/guests.rt', r'fn column_of', 'verdicts as places in one array of counts'),
    ('text/src/output.rt', r"b'\{' =>", 'a number picks a part of a text'),
    ('text/src/input.rt', r'pub fn next', '0 where the input ends'),
    ('inspect/src/files.rt', r'pub fn first\(', '0 if there is no first word'),
    ('inspect/src/plan.rt', r'const END: usize', 'the words of an answer by their numbers'),
    ('inspect/src/plan.rt', r'const OFF: u64', 'the end of a run by its number'),
]

Function = collections.namedtuple('Function', 'name line params answer clauses body begin text')
Type = collections.namedtuple('Type', 'sort name line members')


def masked(text):
    """The text, as long as before, without comments and with nothing between quotes that could be taken for code."""
    def quiet(m):
        begin = 0 if m.group(0).startswith('//') else m.group(0).index(m.group(0)[-1]) + 1
        return m.group(0)[:begin] + re.sub(r'[^\n]', '_' if begin else ' ', m.group(0)[begin:-1] if begin else m.group(0)) + (m.group(0)[-1] if begin else '')
    return re.sub(r'//[^\n]*|b?"(?:\\.|[^"\\])*"|b?\'(?:\\.[^\']*|[^\\\'\n])\'', quiet, text, flags=re.S)


def closing(text, at):
    """Behind the bracket that closes the one at a place. An arrow's > closes none, and < opens one only if it is the first."""
    opens, closes = ('<([{', '>)]}') if text[at] == '<' else ('([{', ')]}')
    depth = 0
    for i in range(at, len(text)):
        depth += (text[i] in opens) - (text[i] in closes and text[i - 1:i + 1] not in ('->', '=>'))
        if depth == 0:
            return i + 1
    return len(text)


def parts(text, sign, angles):
    """What stands between the signs that stand in no bracket."""
    found, depth, begin = [], 0, 0
    for i, c in enumerate(text):
        depth += (c in '([{' or angles and c == '<') - (c in ')]}' or angles and c == '>' and text[i - 1:i + 1] not in ('->', '=>'))
        if depth == 0 and text.startswith(sign, i):
            found.append(text[begin:i])
            begin = i + len(sign)
    return [part.strip() for part in found + [text[begin:]] if part.strip()]


def arms(block):
    """Each arm of a match's block: its pattern and what it gives."""
    found, at = [], 0
    while (arrow := block.find('=>', at)) >= 0:
        begin = end = arrow + 2 + len(block[arrow + 2:]) - len(block[arrow + 2:].lstrip())
        while end < len(block) and block[end] != ',' and not (end > begin and block[begin] == '{'):
            end = closing(block, end) if block[end] in '([{' else end + 1
        found.append((block[at:arrow].strip(' ,\n'), block[begin:end].strip('{} \n')))
        at = end
    return found


class Source:
    def __init__(self, root, path):
        self.path, self.crate = path, path.split('/')[1]
        with open(os.path.join(root, path), encoding='utf-8') as opened:
            self.text = opened.read()
        self.code, self.lines = masked(self.text), self.text.split('\n')
        self.ends = [m.start() for m in re.finditer('\n', self.text)]
        self.functions, self.types = list(self.find_functions()), list(self.find_types())
        self.matches = [(f, self.line(f.begin + at), arms(block[1:-1])) for f in self.functions for at, _, _, block in self.blocks(f, 'match')]
        self.loops = [(f, self.line(f.begin + at), found) for f in self.functions for at, *found in self.blocks(f, 'while|loop|for')]

    def line(self, at):
        return bisect.bisect_left(self.ends, at) + 1

    def find_functions(self):
        for m in re.finditer(r'\bfn\s+(\w+)\s*(?=[<(])', self.code):
            at = self.code.index('(', closing(self.code, m.end())) if self.code[m.end()] == '<' else m.end()
            behind = end = closing(self.code, at)
            params = [tuple(part.strip() for part in p.split(':', 1)) for p in parts(self.code[at + 1:behind - 1], ',', True) if ':' in p]
            clauses = []
            # a contract's clauses have braces of their own; a function of a trait may have no body
            while (opened := re.compile(r'(?:[^{;\[]|\[[^\]]*\])*').match(self.code, end).end()) < len(self.code):
                clause = re.search(r'\b(requires|ensures|decreases|ghost)\b[^{}]*$', self.code[end:opened])
                if not clause or self.code[opened] == ';':
                    break
                end = closing(self.code, opened)
                clauses.append((clause.group(1), self.code[opened + 1:end - 1].strip()))
            answer = re.match(r'\s*->\s*(.+?)\s*(?=\b(?:requires|ensures|where)\b|$)', self.code[behind:opened], re.S)
            if self.code[opened:opened + 1] == '{':
                stop = closing(self.code, opened)
                yield Function(m.group(1), self.line(m.start()), params, answer.group(1) if answer else '', clauses, self.code[opened:stop], opened, self.text[opened:stop])

    def find_types(self):
        for m in re.finditer(r'\b(enum|struct)\s+(\w+)(?:<[^>]*>)?\s*([({])', self.code):
            members = parts(self.code[m.end():closing(self.code, m.end() - 1) - 1], ',', True)
            yield Type(m.group(1), m.group(2), self.line(m.start()), [re.sub(r'\bpub(\([^)]*\))?\s+|#\[[^\]]*\]\s*', '', member) for member in members])

    def blocks(self, f, words):
        """Where a function has one of the words, the word, what stands before its block, and the block."""
        for m in re.finditer(r'\b(%s)\b(?!\s*<)' % words, f.body):
            opened = f.body.index('{', m.end())
            yield m.start(), m.group(1), f.body[m.end():opened], f.body[opened:closing(f.body, opened)]


def is_number(pattern):
    return re.fullmatch(r'%s(?:\s*\|\s*%s)*' % (NUMBER, NUMBER), pattern) is not None


def several(things, test, least=2):
    return sum(bool(test(thing)) for thing in things) >= least


def called(found):
    """The functions that the arms call, those that only tell a text aside."""
    names = [re.search(r'((?:\w+::)*[a-z]\w*)\s*\((?!\s*&mut \*?\w+,\s*b")', given) for _, given in found]
    return {m.group(1) for m in names if m} - {'nothing'}


def pairs(t):
    return [tuple(m.split(': ', 1)) for m in t.members if ': ' in m] if t.sort == 'struct' else []


def numbers(members):
    return ', '.join(name for name, kind in members if re.fullmatch(NUMBERS, name) and re.fullmatch(INTEGER, kind))


def arrays(members):
    return [name for name, kind in members if re.match(r"&?(?:'\w+\s+)?(?:mut\s+)?\[", kind)]


def lengths(members):
    beside = [name for name, kind in members if re.fullmatch(LENGTHS, name) and re.fullmatch(INTEGER, kind)]
    return beside and arrays(members) and '%s with %s' % (', '.join(arrays(members)), ', '.join(beside))


def unrolled(f):
    """The longest run of neighbouring lines that differ in numbers alone, arms aside."""
    before, run, most = None, 0, 0
    for line in f.body.split('\n'):
        now = re.sub(r'\b(?:0x[\da-fA-F_]+|\d+)\b', '0', line.strip().lstrip('| ').rstrip(',;?)'))
        usable = re.search(r'\b\d', line) and re.search(r'[\[(]', line) and not re.search(r'=>|\blet ', line)
        run = run + 1 if usable and now == before else 1
        before, most = now, max(most, run if usable else 0)
    return most


def flat(f):
    steps = re.findall(r'\blet (\w+) = (?:[A-Z0-9_]+|\w+::[A-Z]+) \* \w+', f.body)
    return re.search(r'\[[^\[\];]*\b(?:\d+|[A-Z]+) \* \w|\[\w+ \* \d', f.body) or any(re.search(r'\[%s\b' % at, f.body) for at in steps)


def moved(head, body):
    return several(re.findall(r'\b[a-z]\w*\b', head), lambda name: re.search(r'(?<![\w.])%s\s*(?:[-+]=|=(?!=))' % name, body), 1)


def passed_on(found):
    return ['%s => ..' % pattern for pattern, given in found if (m := re.search(r'(?:Refused|Err)\((\w+)\)', pattern)) and re.search(r'(?:Refused|Err)\(.*\b%s\b' % m.group(1), given)]


# Each sort: its rule, and what finds it: True or a text for a place. Those that look at more than one thing stand below.
TYPES = {
    '1 option': ('enum of two variants, one with a value, error enums aside; or with a variant Refused(..)', lambda t: t.sort == 'enum' and (
        any(m.startswith('Refused(') for m in t.members) or len(t.members) == 2 and several(t.members, lambda m: '(' in m or '{' in m, 1)
        and not re.search(r'(Refusal|Fault|Reason|Error|Miss)$', t.name)) and ' | '.join(t.members)),
    '1 flag': ('struct with a bool beside a field that is none; function that answers a tuple with one', lambda t: t.sort == 'struct' and (
        0 < sum(m.endswith(': bool') for m in t.members) < len(t.members)) and ', '.join(m for m in t.members if m.endswith(': bool'))),
    '1 number': ('struct or function with integers called as kinds, marks, codes and other numbers of cases (NUMBERS)', lambda t: numbers(pairs(t))),
    '6 length': ('struct or function with an array or slice, and a length or count beside it (LENGTHS)', lambda t: lengths(pairs(t))),
    '6 parallel': ('struct with two or more arrays', lambda t: len(arrays(pairs(t))) >= 2 and ', '.join(arrays(pairs(t)))),
}
FUNCTIONS = {
    '1 flag': (None, lambda f: re.match(r'\((bool,|.*,\s*bool\))', f.answer) and f.answer),
    '1 number': (None, lambda f: numbers(f.params)),
    '1 asked': ('function that compares such a number with a literal or a constant', lambda f: (m := re.search(ASKED, f.body)) and m.group(0)),
    '1 refusal': ('function in which a refusal has its number', lambda f: re.search(r'\bnothing\([1-9]|\bcode: [1-9]|"refused=", [1-9]', f.text)),
    '1 passed on': ('`if let`, or match, that takes a refusal and answers it in another enum', lambda f: ', '.join(re.findall(r'if let ([\w:]*(?:Refused|Err)\([a-z]\w*\))[^{]*\{\s*return', f.body))),
    '3 unrolled': ('three or more neighbouring lines of a function that differ in numbers alone, arms aside', lambda f: unrolled(f) >= 3),
    '4 equality': ('function called as equality or order', lambda f: re.fullmatch(EQUALITY, f.name)),
    '4 copying': ('function called as copying, or with three or more of `let x = y.x;`', lambda f: re.fullmatch(COPYING, f.name) or len(re.findall(r'\blet (\w+) = \w+\.\1;', f.body)) >= 3),
    '4 conversion': ('function called as conversion between bools, bytes, words, enums and numbers', lambda f: re.fullmatch(CONVERSION, f.name)),
    '4 printing': ('function that prints by the calls of `text`', lambda f: '%d calls' % len(re.findall(TELLS, f.body)) if re.search(TELLS, f.body) else None),
    '6 length': (None, lambda f: lengths(f.params)),
    '6 cut': ('function that cuts a buffer at a length that it keeps', lambda f: ', '.join(re.findall(r'\w+\[\.\.\w+\]', f.body))),
    '6 flat': ('function that reaches into a flat array by multiples of an index', flat),
    '7 chain': ('function with two or more `else if`', lambda f: len(re.findall(r'\}\s*else if\b', f.body)) >= 2),
    '7 by place': ('function with a parameter `place` or `step`, which says what is stored', lambda f: ', '.join(n for n, k in f.params if n in ('place', 'step') and re.fullmatch(INTEGER, k))),
}
MATCHES = {
    '1 switch': ('match over numbers, letters or constants', lambda found: several(found, lambda arm: is_number(arm[0]))),
    '1 passed on': (None, lambda found: ', '.join(passed_on(found))),
    '4 to number': ('match from variants to numbers', lambda found: several(found, lambda arm: re.match(VARIANT, arm[0]) and re.fullmatch(r'%s|nothing\([^()]*\)' % NUMBER, arm[1]))),
    '4 from number': ('match from numbers to variants', lambda found: several(found, lambda arm: is_number(arm[0]) and re.match(VARIANT, arm[1]))),
    '4 to variant': ('match from variants to variants', lambda found: several(found, lambda arm: re.match(VARIANT, arm[0]) and re.fullmatch(VARIANT, arm[1]))),
    '4 to text': ('match two or more arms of which give a text', lambda found: several(found, lambda arm: '"' in arm[1])),
    '7 step': ('match over numbers, letters or constants whose arms call different functions', lambda found: several(found, lambda arm: is_number(arm[0])) and len(called(found)) >= 2),
    '7 variants': ('match over variants whose arms call four functions or more', lambda found: several(found, lambda arm: re.match(VARIANT, arm[0]), 4) and len(called(found)) >= 4),
}
LOOPS = {
    '3 by hand': ('while over a local of its condition that the body moves', lambda word, head, body: word == 'while' and moved(head, body)),
    '3 other': ('while that moves none; loop in which a number is counted up', lambda word, head, body: word == 'while' and not moved(head, body)
                or word == 'loop' and re.search(r'\b\w+\s*(?:\+=\s*1\b|=\s*\w+\s*\+\s*1\b)', body)),
    '3 for': ('for over a range of numbers', lambda word, head, body: word == 'for' and '..' in head),
    '6 searched': ('loop that answers the first place it finds', lambda word, head, body: re.search(r'return (?:Some\(|Found::At\(|\w+;|Judged::Bad)', body)),
}
OTHERS = {
    '1 constant': 'integer constant of a module of kinds, marks or features, or called as one of these; or, sizes aside, one that == asks for',
    '1 by hand': 'what no rule finds: the list BY_HAND',
    '2 same': 'functions with one body but for types, constants, literals, modules and the names of locals (25 tokens, or 3 statements)',
    '2 alike': 'functions of one shape but for all names, runs of plain arguments being one; of each group above one is looked at',
    '2 small': 'three or more functions of a crate with one small body (8 to 24 tokens), by the rule of `2 same`',
    '2 types': 'structs or enums with the same fields or variants but for types',
    '5 fact': 'part of a contract that stands in three or more functions, its parameters read as their types',
    '5 travelling': 'two or more parameters, streams aside, that three or more functions have; a function\'s parameter counts in one group',
    '7 table': 'function pointer, table of functions, dyn Fn',
    '8 names': 'answer of one line that only names a lemma',
    '8 repeated': 'three or more answers of a crate with one text but for the goal\'s name',
}


def by_key(found):
    groups = collections.defaultdict(list)
    for key, thing in found:
        groups[key].append(thing)
    return groups


def grouped(sort, found, least=2):
    groups = [group for group in by_key(found).values() if len(group) >= least]
    return [(sort, source, line, 'group %d of %d: %s' % (number, len(group), name)) for number, group in enumerate(groups, 1) for source, line, name in group]


def shape(f, alike):
    """A body's tokens by the rules of point 2."""
    tokens = re.findall(r'b?"[^"]*"|b?\'[^\']*\'|\w+|[^\w\s]', f.body)
    bound = re.findall(r'\b(?:let(?: mut)?|for) (\w+)|[(,]\s*(\w+)(?=[,)])', f.body)
    own = {name for name, _ in f.params} | {a or b for a, b in bound}
    seen, out = {}, []
    for i, token in enumerate(tokens):
        if token[0].isdigit() or token[-1] in '"\'' and len(token) > 1:
            token = '0'
        elif token[0].isupper():
            token = 'C' if token.isupper() and len(token) > 1 else 'T'
        elif token.isidentifier() and token not in KEYWORDS:
            if tokens[i + 1:i + 3] == [':', ':']:
                token = 'm'
            elif alike or token in own and tokens[i - 1] != '.':
                token = 'v' if alike else seen.setdefault(token, 'v%d' % len(seen))
        out.append(token)
    text = re.sub(r'(?:m : : )+', '', ' '.join(out))
    return re.sub(r'\bv(?: , v)+\b', 'v', text) if alike else text


def twins(sources):
    sized = [(s, f, len(re.findall(r'\w+|[^\w\s]', f.body))) for s in sources for f in s.functions]
    large = [(s, f) for s, f, size in sized if size >= 25 or f.body.count(';') >= 2]
    yield from grouped('2 same', ((shape(f, False), (s, f.line, f.name)) for s, f in large))
    first = {shape(f, False): (s, f) for s, f in reversed(large)}
    yield from grouped('2 alike', ((shape(f, True), (s, f.line, f.name)) for s, f in reversed(first.values())))
    yield from grouped('2 small', (((s.crate, shape(f, False)), (s, f.line, f.name)) for s, f, size in sized if 8 <= size < 25 and f.body.count(';') < 2), 3)
    yield from grouped('2 types', (((t.sort, *(re.sub(r'\b(?:\w+::)*[A-Z]\w*$|(?<=\()[^)]*', 'T', m) for m in t.members)), (s, t.line, t.name)) for s in sources for t in s.types if len(t.members) > 1))


def facts(sources):
    found = []
    for s, f, clause, text in ((s, f, *c) for s in sources for f in s.functions for c in f.clauses):
        for fact in parts(text, ' × ', False):
            typed = re.sub(r'(?<![\w.])[a-z]\w*', lambda m: '‹%s›' % dict(f.params).get(m.group(0)) if m.group(0) in dict(f.params) else m.group(0), fact)
            found.append(('%s { %s }' % (clause, re.sub(r'^\((.*)\)$', r'\1', ' '.join(typed.split()))), (s, f.line)))
    for fact, places in sorted(by_key(found).items(), key=lambda e: -len(set(e[1]))):
        if len(set(places)) >= 3:
            yield '5 fact', *places[0], '%d functions: %s' % (len(set(places)), fact)


def travelling(sources):
    """Takes the group that saves most parameters, again and again."""
    left = [(s, f, {p for p in f.params if 'impl' not in p[1]}) for s in sources for f in s.functions]
    while True:
        kinds = {frozenset(p) for _, _, p in left if len(p) > 1}
        groups = ((sum(g <= p for _, _, p in left), g) for g in {a & b for a in kinds for b in kinds} if len(g) > 1)
        count, _, group = max(((n, sorted(g), g) for n, g in groups if n >= 3), key=lambda e: (e[0] * (len(e[2]) - 1), e[1]), default=(0, 0, 0))
        if not count:
            return
        having = [(s, f, p) for s, f, p in left if group <= p]
        for _, _, params in having:
            params -= group
        yield '5 travelling', having[0][0], having[0][1].line, '%d functions: %s' % (count, ', '.join('%s: %s' % p for p in having[0][1].params if p in group))


def places(sources):
    kinds = {name for s in sources if re.search(r'/(kinds|marks)\.rt$', s.path) for name in re.findall(r'const (\w+)', s.code)}
    for s in sources:
        def text(line):
            return s.lines[line - 1].strip()
        for table, things in ((TYPES, s.types), (FUNCTIONS, s.functions)):
            yield from ((sort, s, t.line, '%s%s' % (t.name, ': ' + found if isinstance(found, str) else '')) for t in things for sort, (_, finds) in table.items() if (found := finds(t)))
        yield from ((sort, s, line, 'fn %s: %s' % (f.name, text(line))) for f, line, found in s.matches for sort, (_, finds) in MATCHES.items() if finds(found))
        yield from ((sort, s, line, 'fn %s: %s' % (f.name, text(line))) for f, line, found in s.loops for sort, (_, finds) in LOOPS.items() if finds(*found))
        asked = set(re.findall(r'[!=]=\s*([A-Z][A-Z0-9_]+)', s.code))
        for m in re.finditer(r'\bconst (\w+): (%s) = ' % INTEGER, s.code):
            if re.search(r'/(kinds|marks|codes|features)\.rt$', s.path) or m.group(1) in kinds or m.group(1) in asked and m.group(2) != 'usize':
                yield '1 constant', s, s.line(m.start()), text(s.line(m.start()))
        yield from (('7 table', s, s.line(m.start()), text(s.line(m.start()))) for m in re.finditer(r'[:\[&<(]\s*fn\s*\(|\bdyn Fn', s.code))
        yield from (('1 by hand', s, s.line(m.start()), why) for path, there, why in BY_HAND if s.path == 'crates/' + path and (m := re.search(there, s.text)))
    for finds in twins, facts, travelling:
        yield from finds(sources)


class Proof:
    def __init__(self, root, path):
        self.path, self.crate = path, path.split('/')[1]
        with open(os.path.join(root, path), encoding='utf-8') as opened:
            self.text = opened.read()
        name = os.path.basename(path)[:-len('.antt')]
        self.sort = name if name in ('Answers', 'Invariants', 'Lib') else 'lemmas'
        # each answer: its goal, its line, its lines
        self.answers = [(m.group(1), self.text.count('\n', 0, m.start()) + 1, m.group(2).strip().split('\n')) for m in re.finditer(
            r'^pub (\S+) : goal\.\S+\n((?:.+\n?)+)', self.text, re.M)] if name == 'Answers' else []


def answered(proofs):
    each = [(p, *answer) for p in proofs for answer in p.answers]
    named = r'\S+(?: \w+)? = (?:search )?[\w\'-]+(?: \(?[\w.\'-]+\)?)*'
    yield from (('8 names', p, line, text[0]) for p, _, line, text in each if len(text) == 1 and re.fullmatch(named, text[0]))
    yield from grouped('8 repeated', (((p.crate, ' '.join(text).replace(goal, '')), (p, line, goal)) for p, goal, line, text in each), 3)


def other_way(sources):
    """The points 1 to 3 by lines and by uses."""
    uses, counts, windows = collections.defaultdict(dict), collections.Counter(), collections.defaultdict(set)
    for s in sources:
        for name, variant, opened in re.findall(r'\b([A-Z]\w*[a-z]\w*)::([A-Z]\w*)(\()?', s.code):
            uses[name][variant] = uses[name].get(variant) or bool(opened)
        lines, before = [re.sub(r'\s+', ' ', line).strip() for line in s.code.split('\n')], False
        for number, line in enumerate(lines):
            arm = re.match(r"(?:0x\w+|\d+|b'.'|(?:\w+::)?[A-Z][A-Z0-9_]+)(?: \| .*)? =>", line) is not None
            counts['runs of arms over numbers'] += arm and not before
            before = arm
            counts['fields of bool'] += re.match(r'(?:pub )?\w+: bool,$', line) is not None and not re.match(r'.*\) ->|requires|ensures', lines[number + 1])
            counts['lines that compare with a number above 0, a letter or a constant'] += re.search(r"[!=]= (?:0x\w+|[1-9]\d*|b'.'|(?:\w+::)?[A-Z][A-Z0-9_]+)\b", line) is not None
            counts['while'] += re.search(r'\bwhile\b', line) is not None
            counts['loop'] += re.search(r'\bloop\b', line) is not None
            counts['for'] += re.match(r'for .* in .*\{$', line) is not None
            counts['lines that add a number to a local or take it away'] += re.match(r'\w+ [-+]= \w+[;,]$', line) is not None
            # eight lines that stand elsewhere too, but for modules, numbers and what begins with a capital
            window = tuple(re.sub(r'\b(?:[A-Z]\w*|\d\w*)\b|\w+::', '_', later) for later in lines[number:number + 8])
            if all(window) and len(set(window)) > 4 and not any(re.match(r'use |ghost |pub const|_ =>', part) for part in window):
                windows[window].add((s.path, number))
    shaped = sorted(name for name, seen in uses.items() if 'Refused' in seen or len(seen) == 2 and any(seen.values()) and not name.endswith('Refusal'))
    print('\nother way, 1: %d names of enums are used with two variants, one of which has a value, or with Refused: %s' % (len(shaped), ' '.join(shaped)))
    again = [where for where in windows.values() if len(where) > 1]
    print('other way, 2: %d windows of eight lines stand again, in %d files' % (len(again), len({path for where in again for path, _ in where})))
    print('other way, 1 and 3: %s' % '; '.join('%d %s' % (count, what) for what, count in counts.items()))


def tell(root, options):
    def files(pattern):
        return sorted(os.path.relpath(path, root) for path in glob.glob(os.path.join(root, pattern), recursive=True) if '/out/' not in path)
    sources, proofs = [Source(root, p) for p in files('crates/*/src/**/*.rt')], [Proof(root, p) for p in files('crates/*/proofs/**/*.antt')]
    print('%d sources, %d lines, %d functions, %d types' % tuple(sum(map(count, sources)) for count in (lambda s: 1, lambda s: len(s.ends), lambda s: len(s.functions), lambda s: len(s.types))))
    found = by_key((place[0], place) for place in [*places(sources), *answered(proofs)])
    rules = {sort: rule if isinstance(rule, str) else rule[0] for table in (FUNCTIONS, TYPES, MATCHES, LOOPS, OTHERS) for sort, rule in table.items() if isinstance(rule, str) or rule[0]}
    for sort in sorted(rules):
        if sort[0] != max((other for other in sorted(rules) if other < sort), default='0')[0]:
            print('\npoint %s: %d places' % (sort[0], sum(len(of) for other, of in found.items() if other[0] == sort[0] and other not in ASIDE)))
        these = found.get(sort, [])
        groups = len({place[3].split(':')[0].split(' of ')[0] for place in these if place[3].startswith('group ')})
        count = '%d%s%s' % (len(these), ' in %d groups' % groups if groups else '', ' (aside)' if sort in ASIDE else '')
        crates = ', '.join('%s %d' % e for e in collections.Counter(place[1].crate for place in these).most_common())
        print(('| %s | %s | %s | %s |' if '--markdown' in options else '  %-14s %s: %s' + ('\n    by crate: %s' if '--list' in options else '%.0s')) % (
            (sort, count, rules[sort], crates)))
        if '--list' in options:
            print(''.join('    %s:%d: %s\n' % (source.path, line, ' '.join(text.split())) for _, source, line, text in these), end='')
    kinds = [('%d %s' % (len(of), sort), sum(p.text.count('\n') for p in of)) for sort, of in sorted(by_key((p.sort, p) for p in proofs).items())]
    print('\nproofs: %d files (%s), %d answers' % (len(proofs), ', '.join('%s of %d lines' % kind for kind in kinds), sum(len(p.answers) for p in proofs)))
    for crate, own in sorted(by_key((p.crate, p) for p in proofs).items()) if options & {'--list', '--markdown'} else []:
        sorts = collections.Counter(p.sort for p in own)
        print(('| %s | %d | %d | %d | %d | %d | %d |' if '--markdown' in options else '  %s: %d files, %d Answers, %d Invariants, %d of lemmas, %d answers, %d lines') % (
            crate, len(own), sorts['Answers'], sorts['Invariants'], sorts['lemmas'], sum(len(p.answers) for p in own), sum(p.text.count('\n') for p in own)))
    stand = {place[3] for place in found.get('1 by hand', [])}
    print('BY_HAND: %d stand, %d gone%s' % (sum(e[2] in stand for e in BY_HAND), sum(e[2] not in stand for e in BY_HAND), ''.join('; %s: %s' % (e[0], e[2]) for e in BY_HAND if e[2] not in stand)))
    if '--other-way' in options:
        other_way(sources)


def main(given):
    options, trees = {word for word in given if word.startswith('--')}, [word for word in given if not word.startswith('--')]
    if not options <= {'--list', '--markdown', '--other-way'} or len(trees) > 1:
        raise SystemExit(__doc__)
    here = os.path.dirname(os.path.dirname(os.path.abspath(__file__)))
    if not trees or os.path.isdir(trees[0]):
        return tell(trees[0] if trees else here, options)
    with tempfile.TemporaryDirectory() as folder:
        packed = subprocess.run(['git', '-C', here, 'archive', trees[0], 'crates'], check=True, stdout=subprocess.PIPE).stdout
        with tarfile.open(fileobj=io.BytesIO(packed)) as tar:
            tar.extractall(folder)
        tell(folder, options)


if __name__ == '__main__':
    main(sys.argv[1:])
