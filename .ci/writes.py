"""writes.py [DIR]: kept memory is assigned only where a single store is made, and bytes of a slot only where a word of them is.

A contract sees a call's entry and exit, so it cannot tell a unit that works on a copy and writes it back. This check can. In
the library crates below DIR (crates/):
- an assignment to more than a local's name (an element, a field, what a reference leads to) is a store, and a function's text
  has just the stores that it has below;
- a function that stores has no loop and lends nothing to change, so that nothing repeats its store within a call of it, unless
  marks, which are no words, are all that it is lent to change;
- `&mut` stands only before a whole argument of a call, and a lent slice of words or bytes is only indexed, measured or handed
  on.
"""
import os
import re
import sys

# To lent memory: box/volatile.py marks each of these in what is compiled, and asks for the same numbers there.
LENT = {
    # words of kept memory, second table and recorder, of which a call makes at most one
    ('due', 'step'): 4,
    ('stores', 'step'): 1,
    ('control_calls', 'doorbell'): 1,
    ('control_calls', 'acknowledge'): 1,
    ('control_calls', 'clear_pending'): 1,
    ('control_calls', 'enable'): 1,
    ('event_calls', 'read'): 1,
    ('event_calls', 'acknowledge'): 1,
    ('batch_writes', 'ring'): 1,
    # the bytes of a slot: those of one word
    ('words', 'store_at'): 8,
}
# To other memory: the words of an answer, lent fields, an array of its caller's, marks.
OTHER = {
    ('host', 'tell'): 1,
    ('registers', 'acknowledge'): 1,
    ('image_state', 'gather'): 1,
    ('batches', 'mark_rows'): 1,
}
STORES = {**LENT, **OTHER}
# What a function lends last: a batch's doorbell comes behind all that is written to the queue.
LAST = {('batch_writes', 'write_batch'): 'ring'}
# No part of the unit: they read and write text for the programs, and no crate of the unit rests on them.
OUTSIDE = {'text', 'command_text', 'script'}
# It fills its caller's array, in a loop. So nothing but an array of its caller's own is handed to it.
GATHERS = ('image_state', 'gather')

QUOTED = r'"(?:\\.|[^"\\])*"|\'(?:\\[^\']+|[^\\\'])\'|//[^\n]*'
TOKEN = r'\w+|<<=|>>=|\.\.=|[-+*/%&|^=!<>]=|=>|\S'
ASSIGNS = r'(<<|>>|[-+*/%&|^])?='


def functions(text):
    """Each function of a source: its name, its parameters and its body."""
    text = re.sub(QUOTED, '', text)
    for found in re.finditer(r'\bfn\s+(\w+)\s*(?:<(?:[^<>]|->|<[^<>]*>)*>)?\s*\(', text):
        depth, at = 1, found.end()
        while depth:
            depth += {'(': 1, ')': -1}.get(text[at], 0)
            at += 1
        params = text[found.end():at - 1]
        # the clauses of a contract have braces of their own, each after requires or ensures
        while True:
            opened = text.find('{', at)
            # a trait's method that it leaves to its impls has no body; the length of an array is no end of a declaration
            ahead, arrays = text[at:opened], 1
            while arrays:
                ahead, arrays = re.subn(r'\[[^\[\]]*\]', '', ahead)
            declared = opened < 0 or ';' in ahead
            if declared:
                break
            clause = re.search(r'(requires|ensures|ghost)\b[^{}]*$', text[at:opened])
            depth, at = 1, opened + 1
            while depth:
                depth += {'{': 1, '}': -1}.get(text[at], 0)
                at += 1
            if not clause:
                break
        if not declared:
            yield found.group(1), params, text[opened:at]


def places(tokens):
    """Each token's index, with what its statement has before it, and the callee whose arguments it stands among, or ''."""
    within = [(0, '')]
    for i, token in enumerate(tokens):
        start, callee = within[-1]
        yield i, tokens[start:i], callee
        if token in ('(', '[', '{'):
            within.append((i + 1, tokens[i - 1] if i and token == '(' and tokens[i - 1].isidentifier() else ''))
        elif token in (')', ']', '}'):
            within.pop()
        if token in (';', ',', '=>', '}'):
            within[-1] = (i + 1, within[-1][1])


def stores(tokens):
    """How often a body assigns to more than a local's name."""
    count = 0
    for i, target, _ in places(tokens):
        while target and target[0] in ('else', 'if', 'while'):
            target = target[1:]
        bound = target[:1] in (['let'], ['const']) or len(target) == 1 and target[0].isidentifier()
        if re.fullmatch(ASSIGNS, tokens[i]) and not bound:
            count += 1
    return count


def lends(slices, tokens):
    """What a body lends to change: each name with its callee, which is '' where it is no whole argument of a call."""
    for i, _, callee in places(tokens):
        at = i
        if tokens[i:i + 2] == ['&', 'mut']:
            at += 3 if tokens[i + 2] == '*' else 2
        elif tokens[i] not in slices or tokens[i - 1] == '*' or tokens[i + 1] == '[' or tokens[i + 1:i + 3] == ['.', 'len']:
            continue
        yield tokens[at], callee if tokens[at + 1] in (')', ',') else ''


def marks_alone(params):
    """Whether slices of bools are all that a function is lent to change: no word of memory is one."""
    lent = re.findall(r'&(?:\'\w+\s+)?mut\s*([^,]+)', params)
    return bool(lent) and all(what.strip() == '[bool]' for what in lent)


def wrong(crate, text):
    """What the functions of a crate's source do that they may not."""
    found = []
    for name, params, body in functions(text):
        tokens = re.findall(TOKEN, body)
        slices = re.findall(r'(\w+)\s*:\s*&(?:\'\w+\s+)?mut\s*\[u(?:64|8)\]', params)
        lent = list(lends(slices, tokens))
        count, may = stores(tokens), STORES.get((crate, name), 0)
        if count != may:
            found.append('%s::%s stores %d times, allowed %d' % (crate, name, count, may))
        if may and (crate, name) != GATHERS and not marks_alone(params) and (lent or {'loop', 'while', 'for'} & set(tokens)):
            found.append('%s::%s stores and has a loop, or lends what may be stored to' % (crate, name))
        if (crate, name) in LAST and [callee for _, callee in lent][-1:] != [LAST[crate, name]]:
            found.append('%s::%s lends something behind %s' % (crate, name, LAST[crate, name]))
        for what, callee in lent:
            if not callee or callee == GATHERS[1] and not re.search(r'\blet mut %s = \[' % what, body):
                found.append('%s::%s lends %s otherwise than to a call that hands it on' % (crate, name, what))
    return found


def unit_on_outside(folder):
    """The libraries that rest on a crate that is no part of the unit."""
    with open(os.path.join(folder, '..', 'crates.txt'), encoding='utf-8') as opened:
        lines = [line.split('#')[0].split(':') for line in opened if ':' in line.split('#')[0]]
    for name, needs in lines:
        if name not in OUTSIDE and os.path.isfile(os.path.join(folder, name, 'src', 'lib.rt')):
            yield from ((name, other) for other in OUTSIDE & set(needs.split()))


def main(folder):
    seen, bad = [], []
    for crate in sorted(os.listdir(folder)):
        source = os.path.join(folder, crate, 'src')
        if crate in OUTSIDE or not os.path.isfile(os.path.join(source, 'lib.rt')):
            continue
        for file in sorted(os.listdir(source)):
            with open(os.path.join(source, file), encoding='utf-8') as opened:
                text = opened.read()
            seen += [(crate, name) for name, _, _ in functions(text)]
            bad += wrong(crate, text)
    bad += ['%s::%s is not the name of one function' % key for key in STORES if seen.count(key) != 1]
    bad += ['%s rests on %s' % rests for rests in unit_on_outside(folder)]
    for line in bad:
        print(line)
    print('writes: %d functions, %d write where they may not' % (len(seen), len(bad)))
    return 1 if bad or not seen else 0


if __name__ == '__main__':
    sys.exit(main(sys.argv[1] if len(sys.argv) > 1 else 'crates'))
