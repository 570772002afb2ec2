"""volatile.py: the unit's LLVM text with its stores to lent memory marked volatile, and nothing else changed.

    volatile.py mark PLAIN MARKED [FUNCTION=STORES..]   makes MARKED
    volatile.py check PLAIN TEXT TARGETS                compares TEXT, in which so many lines may name another target

A compiler may merge plain stores, drop them and exchange them; of volatile ones it makes each as it stands, and in their order.

A store is to lent memory if its pointer is not of a frame of the text: neither an alloca nor an element of one, nor what a place for
one pointer holds, where nothing but these is stored there. Every function of the text has to have as many writes of this kind as its
source has stores, by the tables of .ci/writes.py, and one that is not in them none. The stores of the first table are marked, and
nothing of the second, where an answer's is a copy. A function may write its result, or what it is lent to change (the state of a loop
over a slice), through a parameter. That is no such write where every call of it hands over a place of the caller's frame, or of a
frame that the caller was handed so. The FUNCTIONs stand in for the tables, for another text.
"""
import os
import re
import sys

sys.path.append(os.path.join(os.path.dirname(os.path.abspath(__file__)), '..', '.ci'))
import writes

NAME = r'@(?:"([^"]+)"|([\w.:]+))'
DEFINE = r'define (.*?)' + NAME + r'\((.*)\)'
CALL = r'  (?:%[\w.]+ = )?(?:tail )?call .*?' + NAME + r'\((.*)\)'
OWN = r'  (%[\w.]+) = (?:alloca |getelementptr .*?, ptr ([^\s,]+))'
SLOT = r'  (%[\w.]+) = alloca ptr,'
HELD = r'  store ptr (\S+), ptr (%[\w.]+)(?:,|$)'
LOADED = r'  (%[\w.]+) = load ptr, ptr (%[\w.]+)(?:,|$)'
STORE = r'  store .*, ptr (\S+?)(?:,|$)'
COPY = r'  (?:tail )?call void @llvm\.mem[\w.]+\(ptr (?:\w+ )*([^\s,]+)'
UNKNOWN = r'  .*\b(?:store (?:volatile|atomic)|atomicrmw|cmpxchg|asm|llvm\.masked)\b'
TARGET = r'target (?:datalayout|triple) = "'
PROCESSOR = ' "target-cpu"="x86-64-v2"'


class Wrong(Exception):
    pass


def key(name):
    """A function as the tables have it: its crate and its name, without the modules between and the types that it is for."""
    parts = name.split('::<')[0].split('::')
    return parts[0], parts[-1]


def pointers(words):
    """The pointers among parameters or arguments: the place of each, with its name."""
    depth, one, split = 0, '', []
    for letter in words + ',':
        depth += (letter in '({[<') - (letter in ')}]>')
        if letter == ',' and not depth:
            split.append(one.split())
            one = ''
        else:
            one += letter
    return {place: words[-1] for place, words in enumerate(split) if words[:1] == ['ptr']}


def functions(text):
    """Each function of a text: its name, its parameters that may be places of a caller's frame, its numbered lines, and its places for
    one pointer. Such parameters are the pointers of one that this text alone can call, and the first of one that returns nothing, for
    its result."""
    found = []
    for number, line in enumerate(text.split('\n')):
        if line.startswith('define '):
            how, quoted, plain, words = re.match(DEFINE, line).groups()
            given = pointers(words)
            if not how.startswith('internal '):
                given = {0: given[0]} if 0 in given and how.split()[-1] == 'void' else {}
            found.append((quoted or plain, given, []))
        elif found:
            found[-1][2].append((number, line))
    return [(name, given, lines, slots(lines)) for name, given, lines in found]


def slots(lines):
    """The places of a frame for one pointer each, with what is stored there, which nothing else reaches than these stores and loads."""
    held = {re.match(SLOT, line).group(1): set() for _, line in lines if re.match(SLOT, line)}
    for _, line in lines:
        stored, loaded = re.match(HELD, line), re.match(LOADED, line)
        if stored and stored.group(2) in held:
            held[stored.group(2)].add(stored.group(1))
        reached = [stored.group(1)] if stored else [] if loaded or re.match(SLOT, line) else re.findall(r'%[\w.]+', line)
        for name in reached:
            held.pop(name, None)
    return held


def own_places(lines, held, given):
    """A function's pointers to its own frame, and to its callers' where these are given."""
    held = dict(held)
    made = [re.match(OWN, line) or re.match(LOADED, line) for _, line in lines]
    made = [(found.group(1), found.group(2), found.re.pattern == LOADED) for found in made if found]
    while True:
        own = set(given)
        for name, of, loaded in made:
            if not of or (of in held if loaded else of in own):
                own.add(name)
        wrong = [slot for slot in held if not held[slot] <= own]
        if not wrong:
            return own
        for slot in wrong:
            del held[slot]


def named(text):
    """The names of a text that stand otherwise than where a function is made or called: whoever has such a function may call it."""
    for line in text.split('\n'):
        at = re.match(DEFINE, line) or re.match(CALL, line)
        rest = at.group(3) if at and line.startswith('  ') else '' if at else line
        yield from (quoted or plain for quoted, plain in re.findall(NAME, rest))


def in_frames(found, text):
    """Of each function, the parameters that are places of a caller's frame in every call."""
    may = {name: given for name, given, _, _ in found}
    for name in set(named(text)) & may.keys():
        may[name] = {}
    while True:
        called, lent = set(), set()
        for name, _, lines, held in found:
            own = own_places(lines, held, may[name].values())
            for _, line in lines:
                call = re.match(CALL, line)
                if call:
                    callee = call.group(1) or call.group(2)
                    called.add(callee)
                    lent.update((callee, place) for place, word in pointers(call.group(3)).items() if word not in own)
        left = {name: {place: word for place, word in given.items() if name in called and (name, place) not in lent}
                for name, given in may.items()}
        if left == may:
            return may
        may = left


def writing(text):
    """Each function of a text, with its writes beyond its own frame: the line of each, or None of a copy."""
    found, told = functions(text), []
    given = in_frames(found, text)
    for name, _, lines, held in found:
        own, written = own_places(lines, held, given[name].values()), []
        for number, line in lines:
            if re.match(UNKNOWN, line):
                raise Wrong('line %d writes otherwise than by a plain store: %s' % (number + 1, line))
            if line.startswith('  store '):
                to = re.match(STORE, line)
                written += [] if to and to.group(1) in own else [number]
            elif re.match(COPY, line):
                written += [] if re.match(COPY, line).group(1) in own else [None]
        told.append((name, written))
    return told


def chosen(text, lent, other):
    """The lines of the stores to lent memory, if every function writes as often as the tables say."""
    lines, seen = set(), set()
    for whole, written in writing(text):
        name = key(whole)
        may = lent.get(name, other.get(name, 0))
        if len(written) != may:
            raise Wrong('%s::%s writes %d times beyond its frame, and should %d' % (*name, len(written), may))
        # of a generic function that stores to other memory there is one for each type, and each stores as often
        if may and name in seen and not (name in other and '::<' in whole):
            raise Wrong('%s::%s is there twice' % name)
        if name in lent and None in written:
            raise Wrong('%s::%s copies to lent memory' % name)
        lines.update(written if name in lent else ())
        seen.add(name)
    missing = sorted(set(lent) - seen)
    if missing:
        raise Wrong('%s::%s is not there' % missing[0])
    return lines


def mark(text, lines):
    return '\n'.join(line.replace('  store ', '  store volatile ', 1) if number in lines else line
                     for number, line in enumerate(text.split('\n')))


def check(plain, text, lines, targets):
    """Whether a text differs from the plain one in these lines, by the mark alone, and in so many that name the target."""
    before, after = plain.split('\n'), text.split('\n')
    if len(before) != len(after):
        raise Wrong('%d lines, and should be %d' % (len(after), len(before)))
    named = 0
    for number, (old, new) in enumerate(zip(before, after)):
        if number in lines:
            same = new == '  store volatile ' + old[len('  store '):]
        elif new == old:
            same = True
        else:
            named += 1
            place = re.match(TARGET, old)
            same = new.startswith(place.group()) if place else new == old.replace(PROCESSOR, '')
        if not same or named > targets:
            raise Wrong('line %d was\n%s\nand is\n%s' % (number + 1, old, new))
    if named != targets:
        raise Wrong('%d lines name another target, and should be %d' % (named, targets))


def main(what, before, after, *more):
    with open(before, encoding='utf-8') as opened:
        plain = opened.read()
    if what == 'mark':
        given = {key(word.split('=')[0]): int(word.split('=')[1]) for word in more}
        lines = chosen(plain, given or writes.LENT, {} if given else writes.OTHER)
        with open(after, 'w', encoding='utf-8') as opened:
            opened.write(mark(plain, lines))
        return
    lines = chosen(plain, writes.LENT, writes.OTHER)
    with open(after, encoding='utf-8') as opened:
        check(plain, opened.read(), lines, int(more[0]))
    print('volatile: %s: %d stores are marked, %d lines name another target, the others are as they were'
          % (os.path.basename(after), len(lines), int(more[0])))


if __name__ == '__main__':
    try:
        main(*sys.argv[1:])
    except Wrong as wrong:
        sys.exit('volatile: %s' % wrong)
