"""sizes.py MACHINE SYMBOLS LISTING COMPILER CALL..: code and stack of each call, as rows of a Markdown table.

SYMBOLS is `nm -S`, LISTING is `objdump -d -r --no-show-raw-insn`, COMPILER is what clang's -fstack-usage says. What a function
takes of the stack is read from its instructions and has to agree with the compiler; a call takes the most along any path of
calls. Ends with 1 if a call takes more than LIMIT, calls itself, calls what is not there, or moves the stack pointer in a way
not known here.
"""
import re
import sys

LIMIT = 2048
RED_ZONE = 128  # below the stack pointer of a function that calls nothing, on x86-64


class Wrong(Exception):
    pass


def listed(text):
    """Each function of a listing: its instructions, each with the symbol that it refers to, or None."""
    found, lines = {}, None
    for line in text.split('\n'):
        start = re.match(r'[0-9a-f]+ <(.*)>:$', line)
        refers = re.match(r'\s+[0-9a-f]+: (R_\S+)\s+(\S+)', line)
        code = re.match(r'\s+[0-9a-f]+:\t(.*)', line)
        if start:
            lines = found.setdefault(start.group(1), [])
        elif refers and lines:
            # a function may be named by its own section
            lines[-1][1] = re.sub(r'^\.text\.|[-+]0x[0-9a-f]+$', '', refers.group(2))
        elif code and lines is not None:
            lines.append([code.group(1).split('//')[0].split(' <')[0].strip(), None])
    return found


def taken_x86_64(code):
    """How far an instruction moves the stack pointer down."""
    if re.match(r'push\b', code):
        return 8
    down = re.match(r'sub\s+\$(0x[0-9a-f]+),%rsp$', code)
    if down:
        return int(down.group(1), 16)
    if re.search(r',%rsp$', code) and not re.match(r'(add|cmp|test)\s', code):
        raise Wrong('not known: ' + code)
    return 0


def taken_aarch64(code):
    down = re.match(r'sub\s+sp, sp, #(0x[0-9a-f]+)(, lsl #12)?$', code)
    if down:
        return int(down.group(1), 16) << (12 if down.group(2) else 0)
    down = re.search(r'\[sp, #-(\d+)\]!$', code)
    if down:
        return int(down.group(1))
    if re.match(r'(?!add|ldp|ldr|cmp|stp|str)\S+\s+sp,', code):
        raise Wrong('not known: ' + code)
    return 0


class Unit:
    """The functions of one archive: what each takes of the stack, and whom it calls."""

    def __init__(self, machine, listing):
        self.machine = machine
        self.code = listed(listing)
        self.frame = {name: self.taken(lines) for name, lines in self.code.items()}
        self.called = {name: self.calls(name, lines) for name, lines in self.code.items()}

    def taken(self, lines):
        one = taken_x86_64 if self.machine == 'x86_64' else taken_aarch64
        return sum(one(code) for code, _ in lines)

    def calls(self, name, lines):
        found = set()
        for code, symbol in lines:
            if re.match(r'(call\s+\*|blr\s)', code):
                raise Wrong('%s calls through a register' % name)
            goes = re.match(r'(call|jmp|j[a-z]+|bl?|b\.\w+)\s+[0-9a-f]', code)
            if goes and symbol:
                if symbol not in self.code:
                    raise Wrong('%s calls %s, which is not there' % (name, symbol))
                found.add(symbol)
            elif re.match(r'(call|bl)\s', code):
                raise Wrong('%s calls itself' % name)
        return found

    def below(self, name):
        """What is taken beside the frame: the return address that a call pushes, and the red zone."""
        if self.machine != 'x86_64':
            return 0
        red = any(re.search(r'-0x[0-9a-f]+\(%rsp', code) for code, _ in self.code[name])
        return 8 + (RED_ZONE if red else 0)

    def stack(self, name, above=()):
        if name in above:
            raise Wrong('%s calls itself' % name)
        deepest = max((self.stack(callee, above + (name,)) for callee in self.called[name]), default=0)
        return self.frame[name] + self.below(name) + deepest

    def reached(self, name):
        found, left = set(), [name]
        while left:
            name = left.pop()
            if name not in found:
                found.add(name)
                left.extend(self.called[name])
        return found

    def vectors(self):
        """Whether any instruction names a vector register. On Arm the target of a branch or of ADR can look like one."""
        pattern = r'%[xyz]mm' if self.machine == 'x86_64' else r'(?!b|cb|tb|adr)\S+\s(.*[\s{])?[qvdsh]\d+\b'
        return any(re.match('.*' + pattern if self.machine == 'x86_64' else pattern, code)
                   for lines in self.code.values() for code, _ in lines)


def sizes_of(symbols):
    found = {}
    for line in symbols.split('\n'):
        parts = re.match(r'[0-9a-f]+ ([0-9a-f]+) [Tt] (.*)$', line)
        if parts:
            found[parts.group(2)] = int(parts.group(1), 16)
    return found


def agree(unit, compiler):
    """The frames that were read are those that the compiler made."""
    told = dict(re.findall(r'^(.*)\t(\d+)\tstatic$', compiler, re.M))
    if set(told) != set(unit.frame):
        raise Wrong('the compiler tells of other functions: %s' % sorted(set(told) ^ set(unit.frame)))
    for name, frame in unit.frame.items():
        if frame != int(told[name]):
            raise Wrong('%s takes %d by its instructions and %s by the compiler' % (name, frame, told[name]))


def table(machine, symbols, listing, compiler, calls):
    unit, sizes = Unit(machine, listing), sizes_of(symbols)
    agree(unit, compiler)
    rows = []
    for call in calls:
        stack, whole = unit.stack(call), sum(sizes[name] for name in unit.reached(call))
        rows.append('| `%s` | %s | %d | %d | %d |' % (call, machine, sizes[call], whole, stack))
        if stack > LIMIT:
            raise Wrong('%s takes %d bytes of stack, more than %d' % (call, stack, LIMIT))
    return rows, unit.vectors()


def main(machine, symbols, listing, compiler, *calls):
    texts = [open(path, encoding='utf-8').read() for path in (symbols, listing, compiler)]
    try:
        rows, vectors = table(machine, *texts, calls)
    except Wrong as wrong:
        print('sizes: %s: %s' % (machine, wrong), file=sys.stderr)
        return 1
    print('\n'.join(rows))
    print('%s %s vector registers' % (machine, 'uses' if vectors else 'uses no'), file=sys.stderr)
    return 0


if __name__ == '__main__':
    sys.exit(main(*sys.argv[1:]))
