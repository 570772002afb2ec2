"""merged.py MACHINE PLAIN MARKED: the stores of box/merged.c in two assemblies, each beside those that are due.

Ends with 1 unless the marked ones are those that are due, one by one and in order, and the plain ones are not. So a compiler that
would keep plain stores as they are shows here, too, and the marks would not be what this folder says of them.
"""
import re
import sys

# Each function's stores in their order: through which pointer parameter, to which byte, of how many bytes.
COMMAND = [(1, at, 1) for at in range(16)]
DUE = {
    'word': [(0, at, 1) for at in range(8)],
    'fill': [(0, 8 * word, 8) for word in (1, 2, 3, 0)],
    'again': [(0, 8, 8), (0, 0, 8), (0, 8, 8)],
    'batch': COMMAND + [(0, 0, 8)],
    'looped': COMMAND + [(0, 0, 8)],
    'batches': COMMAND[:8] + [(0, 0, 8)] + [(1, 16 + at, 1) for at in range(8)] + [(0, 0, 8)],
}
# Stores that may be as they are due though they are plain.
UNSPOILT = {('x86_64', 'looped')}
PLACES = {'x86_64': ['rdi', 'rsi'], 'aarch64': ['x0', 'x1']}
INTEL = r'\tmov(?P<kind>[bwlq]|[ua]ps|dq[ua])\t\S+, (?P<at>-?\d*)\(%(?P<base>\w+)\)$'
ARM = r'\tst(?P<kind>u?r[bh]?|n?p)\t(?P<register>\w).*\[(?P<base>\w+)(?:, #(?P<at>-?\d+))?\]$'
STORES = {'x86_64': (INTEL, r'\t(?!lea|cmp|test)\w+\t.*, \S*\)$'), 'aarch64': (ARM, r'\tst')}


def size(machine, found):
    if machine == 'x86_64':
        return {'b': 1, 'w': 2, 'l': 4, 'q': 8}.get(found['kind'], 16)
    narrow = {'b': 1, 'h': 2}.get(found['kind'][-1])
    return narrow or {'w': 4, 'x': 8}[found['register']] * (2 if found['kind'].endswith('p') else 1)


def stores(machine, text):
    """The stores of each function, as DUE has them; one in a form that is not known, as its line."""
    told, name = {}, None
    known, any_store = STORES[machine]
    for line in text.split('\n'):
        label = re.match(r'(\w+):', line)
        if label:
            name = label.group(1)
            told[name] = []
        elif re.match(any_store, line):
            found = re.match(known, line)
            if found and found['base'] in PLACES[machine]:
                told[name].append((PLACES[machine].index(found['base']), int(found['at'] or 0), size(machine, found)))
            else:
                told[name].append(line)
    return told


def become(made, due):
    """What became of the stores that were due."""
    if made == due:
        return 'as they are due'
    if any(isinstance(store, str) for store in made):
        return 'in another form'
    if sorted(made) == sorted(due):
        return 'exchanged'
    return 'dropped' if sum(store[2] for store in made) < sum(store[2] for store in due) else 'merged'


def main(machine, *files):
    texts = []
    for file in files:
        with open(file, encoding='utf-8') as opened:
            texts.append(stores(machine, opened.read()))
    wrong = 0
    for name, due in DUE.items():
        plain, marked = [become(made.get(name, []), due) for made in texts]
        print('merged: %s, %s: of %d stores plain %d, %s; marked %d, %s'
              % (machine, name, len(due), len(texts[0][name]), plain, len(texts[1][name]), marked))
        wrong += marked != 'as they are due' or plain == marked and (machine, name) not in UNSPOILT
    return 1 if wrong else 0


if __name__ == '__main__':
    sys.exit(main(*sys.argv[1:]))
