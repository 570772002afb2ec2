"""The checks of the gate, tried on small inputs that they must tell apart."""
import contextlib
import io
import os
import sys
import tempfile

sys.dont_write_bytecode = True
import cited
import refusals
import tried
import version
import writes

FAILED = []


def expect(what, holds):
    if not holds:
        FAILED.append(what)


def write(root, path, text, mode='w'):
    whole = os.path.join(root, path)
    os.makedirs(os.path.dirname(whole), exist_ok=True)
    with open(whole, mode, encoding='utf-8') as opened:
        opened.write(text)


def citations():
    with tempfile.TemporaryDirectory() as root:
        write(root, 'crates/a/specs/A.antt', 'unfoldable pub part : ℕ → ℕ\npart w = w\n\npub record Formed (w : ℕ) : Type 0 where\n')
        write(root, 'crates/a/src/lib.rt', 'pub fn part(w: u64) -> u64\n{ w }\nconst LIMIT: u64 = 8;\n\nimpl Tells for low::Part {\n}\n')
        write(root, 'crates/a/stdout', 'length 5: accepted\n')
        write(root, 'crates/a/must-fail/apart_1.edit', '# part_wide\nrefuses: part\nfile: src/lib.rt\nold: w\nnew: v\n')
        write(root, 'README.md', 'text')
        there = '`a/specs/A.antt:part` `a/specs/A.antt:Formed` `a/src/lib.rt:part` `a/src/lib.rt:LIMIT` `a/src/lib.rt:Tells for low::Part` `a/stdout:length 5` `README.md` `a/must-fail/apart_1.edit:part_wide`'
        expect('citations that are there pass', cited.missing(root, there) == [])
        for absent in ['a/specs/A.antt:par', 'a/specs/A.antt:w', 'a/src/lib.rt:limit', 'a/src/lib.rt:Part', 'a/src/lib.rt:Tells for Part', 'a/src/lib.rt:Tells for high::Part', 'a/src/lib.rt:Asks for low::Part', 'a/stdout:length', 'a/specs/B.antt', 'nothing', 'a/specs', 'a/must-fail/apart_1.edit:part']:
            expect('missing: ' + absent, len(cited.missing(root, 'x\n`%s` y' % absent)) == 1)
        law = 'module _ (m : ℕ) where\n  pub holds : m ≡ m\n  holds = refl\n\npub record R : Type 0 where\n  pub field : ℕ\n'
        write(root, 'crates/a/proofs/A.antt', law + '\npub also : (n : ℕ) → n ≡ n\nalso n = refl\n')
        expect('a theorem left out', cited.uncited(root, 'a/proofs', '`a/proofs/A.antt:holds`') == ['a/proofs/A.antt:also'])
        expect('none left out', cited.uncited(root, 'a/proofs', '`a/proofs/A.antt:holds`, `a/proofs/A.antt:also`') == [])


def logs():
    at = './proofs/f/Answers.antt:1:2: error: '
    left = 'note: src/lib.rt:1:1: it is not proved that what the function ensures holds when it returns (`returns`); the facts known there allow values at which this goal is false\n'
    expect('a failed fact', refusals.reason('note\n' + at + '`returns`: expected type `a ≡ b`, but this has type `a ≡ c`\n') is None)
    expect('a failed fact in several lines', refusals.reason(at + '`returns`: the two types differ where one has `a`\n  (expected) and the other `c` (found)\n  expected type `a ≡ b`, but this has type `c ≡ b`\n') is None)
    expect('a failed sum', refusals.reason(at + '`overflow_add-i`: `omega`: the goal does not follow from what it read\n') is None)
    expect('a fact that the search leaves', refusals.reason(at + '`f-spec`: `close` was not admitted\n' + left) is None)
    expect('an invariant that a turn does not keep', refusals.reason(at + '`loop-i-preserved`: expected type `goal.the-invariant-loop-i`, but this has type `b`\n') is None)
    expect('a law', refusals.reason('./proofs/A.antt:1:2: error: `low`: expected type `a`, but this has type `b`\n./proofs/A.antt:3:4: error: 3 declarations that depend on `low`, which was rejected, were not checked: x\n') is None)
    for log in [
        '',
        'rt: an error that names no place\n',
        at + '`overflow_add-i`: `goal.overflow_add-i`: module `Rattle.c.proofs.f.Goals` has no `overflow_add-i` that can be named from here\n',
        at + '`f-spec`: expected type `goal.After-shl`, but this has type `goal.returns`\n',
        at + '`at`: the two types differ where one has `Lts.After-i`\n  (expected) and the other `Lts.After-k` (found)\n  expected type `Rattle.c.proofs.f.Lts.After-i`, but this has type `Lts.After-k`\n',
        at + 'module `Rattle.c.proofs.f` has no `Goals` that can be named from here\n',
        at + '`returns`: record `Rattle.c.proofs.f.Lts.After-wr` has no field `rd`\n',
        at + '`returns`: record `Rattle.c.proofs.f.Lts.After-wr`\n  has no field `rd`\n',
        'src/lib.rt:1:2: error[unknown-name]: cannot find value `x` in this scope\n' + left,
        './specs/A.antt:1:2: error: `f`: `g` is not in scope\n' + left,
        './specs/A.antt:1:2: error: Parse: unexpected\n' + left,
        at + '`f-spec`: `close` was not admitted (it has holes), so this cannot be checked\n',
        at + '2 declarations that depend on `low`, which was rejected, were not checked: x, y\n',
    ]:
        expect('another reason: ' + log[:60], refusals.reason(log) is not None)


def groups():
    fact = './proofs/%s/Answers.antt:1:2: error: `returns`: expected type `a ≡ b`, but this has type `a ≡ c`\n'
    two = fact % 'm/f' + fact % 'g' + 'fn c::m::f: not proved\nfn c::g: not proved\nfn c::h: proved\n'
    expect('two functions, each for its own fact', [refusals.own_reason(two, 'c', name) for name in ('m::f', 'g')] == [None, None])
    one = fact % 'm/f' + 'fn c::m::f: not proved\nfn c::g: not proved; it calls `c::m::f`, which is not proved\nfn c::h: proved\n'
    expect('the one that was edited', refusals.own_reason(one, 'c', 'm::f') is None)
    for name, what in [('h', 'a member that was proved'), ('g', 'a member that only calls'), ('x', 'a member without a verdict')]:
        expect(what, refusals.own_reason(one, 'c', name) is not None)
    expect('a member with no fact of its own', refusals.own_reason(fact % 'm/f' + 'fn c::g: not proved\n', 'c', 'g') is not None)
    shape = './proofs/g/Answers.antt:1:2: error: `x`: module `Rattle.c.proofs.g.Goals` has no `x` that can be named from here\nfn c::g: not proved\n'
    expect('a member whose proof does not fit', refusals.own_reason(fact % 'm/f' + shape, 'c', 'g') is not None)
    both = fact % 'm/f' + './proofs/m/f/Answers.antt:3:4: error: `returns-2`: expected type `a`, but this has type `b`\nfn c::m::f: not proved\n'
    expect('two facts of one function', [refusals.own_reason(both, 'c', name) for name in ('m::f.returns', 'm::f.returns-2')] == [None, None])
    expect('a fact that did not fail', refusals.own_reason(both, 'c', 'm::f.returns-3') == 'no fact of its own fails, but: returns, returns-2')
    expect('a fact by the beginning of its name', refusals.own_reason(both.replace('returns`', 'returns-1`'), 'c', 'm::f.returns') is not None)
    calls = fact % 'm/f' + fact % 'g' + 'fn c::m::f: not proved\nfn c::g: not proved; it calls `c::m::f`, which is not proved\n'
    expect('a fact of a caller', refusals.own_reason(calls, 'c', 'g.returns') is None)
    expect('a caller that fails no fact', refusals.own_reason(one, 'c', 'g.returns') is not None)
    expect('a fact where the proof does not fit', refusals.own_reason(shape.replace('error: `x`', 'error: `returns`'), 'c', 'g.returns') is not None)
    expect('a group', refusals.judged('c', 'refuses: m::f.returns\nrefuses: m::f.returns-2\n', both) == [])
    expect('one fact for two', len(refusals.judged('c', 'refuses: m::f\nrefuses: m::f\n', both)) == 1)
    expect('a function and a fact of it', len(refusals.judged('c', 'refuses: m::f\nrefuses: m::f.returns\n', both)) == 1)
    law = './proofs/Laws.antt:1:2: error: `keeps`: expected type `a`, but this has type `b`\n'
    expect('a law', refusals.own_reason(law, 'c', 'Laws.keeps') is None)
    expect('another law', refusals.own_reason(law, 'c', 'Laws.keep') is not None)
    method = 'note: src/lib.rt:1:1: it is not proved that what the function ensures holds (`returns`)\nfn c::Part::of: no proof: `search` did not prove `returns`\n'
    expect('a method of a type', refusals.own_reason(method, 'c', 'Part::of.returns') is None)
    expect('another method', refusals.own_reason(method, 'c', 'Part::put.returns') is not None)


def left_by_search():
    """A fact that no proof file states is told in a note before the verdict of its function, or in the verdict."""
    expect('a member that the search leaves', refusals.own_reason('fn c::g: no proof: expected answers in ./proofs/g/Answers.antt; `search` did not prove `returns`\n', 'c', 'g') is None)
    note = 'note: src/lib.rt:%d:5: it is not proved that the index is below the slice\'s length (`%s`)\n'
    log = 'fn c::e: proved\n' + note % (1, 'bounds-at') + 'help: state it\nfn c::f: not proved\n' + note % (9, 'returns') + 'fn c::g: no proof: it calls `c::f`, which is not proved\n'
    expect('a note', [refusals.own_reason(log, 'c', name) for name in ('f', 'f.bounds-at', 'g.returns')] == [None] * 3)
    expect('a note of another function', [refusals.own_reason(log, 'c', name) is None for name in ('f.returns', 'g.bounds-at', 'g', 'e')] == [False] * 4)


def edits():
    text = 'Of two.\n\n# one\nrefuses: f.returns\nfile: src/lib.rt\nold: a + 1\nnew: a + 2\n\n# two\nrefuses: g\nfile: src/lib.rt\nold:     a\nnew:\nfile: specs/A.antt\nold: n\nnew:  m\n'
    with tempfile.TemporaryDirectory() as root:
        write(root, 'src/lib.rt', 'f\n    a\ng a + 1\n')
        write(root, 'specs/A.antt', 'n')
        expect('an edit of two files', tried.edited(root, text) == {'src/lib.rt': 'f\n\ng a + 2\n', 'specs/A.antt': ' m'})
        for wrong in ['', text.replace('old: n', 'old: o'), text.replace('old: a + 1', 'old: a'), text.replace('new: a + 2', 'new:     a')]:
            try:
                tried.edited(root, wrong)
                expect('an edit that does not fit: ' + wrong[:60], False)
            except ValueError:
                pass
    for status, log, holds in [(1, 'x\nlogic=not-proved\n', True), (0, 'logic=proved\n', False), (1, 'src/lib.rt:1:2: error[x]: y\n', False), (2, 'logic=not-proved\n', False)]:
        expect('a refusal: %d %s' % (status, log), tried.is_refusal(status, log) == holds)


def stores():
    step = 'fn step(kept: &mut [u64], i: usize)\n    ensures { λ r. ⌜ now (kept .exit) ≡ set (now (kept .entry)) i 0 ⌝ }\n{\n    kept[4 * i + 1] = 0;\n}\n'
    expect('a step may store', writes.wrong('stores', step) == [])
    expect('a step of another crate may not', len(writes.wrong('image', step)) == 1)
    expect('a step may not store twice', len(writes.wrong('stores', step.replace('= 0;', '= 0;\n    kept[0] = 1;'))) == 1)
    bounded = step.replace('fn step(', "fn step<'a, T: Into<u64>, F: Fn(usize) -> bool>(passes: F, ")
    expect('a function with bounds is seen', len(writes.wrong('image', bounded)) == 1 and bounded != step)
    nested = 'fn go(kept: &mut [u64]) -> [[u64; 2]; 3]\n{\n    kept[0] = 1;\n}\n'
    expect('a function that answers arrays of arrays is seen', len(writes.wrong('image', nested)) == 1)
    method = 'trait Tells {\n    fn reply(self) -> [[u64; 2]; 3]\n        ensures { result ≡ reply self };\n}\n\n'
    expect('a method without a body is passed over', writes.wrong('image', method) == [])
    expect('and what stands behind it is seen', len(writes.wrong('image', method + nested)) == 1)
    expect('a run may not store', len(writes.wrong('runs', step.replace('fn step', 'pub fn go'))) == 1)
    expect('nor add to a word', len(writes.wrong('runs', step.replace('fn step', 'pub fn go').replace('] = 0', '] += 1'))) == 1)
    expect('reading and comparing is free', writes.wrong('runs', 'fn go(kept: &mut [u64]) -> bool\n{\n    kept[0] == 1\n}\n') == [])
    ring = "fn ring(kept: &mut [u64], w: u64) { kept[0] = w; }"
    expect('a doorbell may store', writes.wrong('batch_writes', ring) == [])
    expect('and lends nothing', len(writes.wrong('batch_writes', ring.replace('kept[0] = w;', 'kept[0] = w; place(&mut *kept, w);'))) == 1)
    batch = 'fn write_batch(kept: &mut [u64], queue: &mut [u8], w: u64) { place(&mut *queue, w); ring(&mut *kept, w); }'
    expect('the doorbell last', writes.wrong('batch_writes', batch) == [])
    first = batch.replace('place(&mut *queue, w); ring(&mut *kept, w);', 'ring(&mut *kept, w); place(&mut *queue, w);')
    expect('not first', len(writes.wrong('batch_writes', first)) == 1)
    bytes_of = 'fn write(slot: &mut [u8], v: u8) { slot[0] = v; }'
    expect('bytes of a slot are stored by words', len(writes.wrong('writer', bytes_of)) == 1)
    expect('and lent as a whole', len(writes.wrong('writer', bytes_of.replace('slot[0] = v;', 'put(&mut slot[1..], v);'))) == 1)
    expect('a copy written back', len(writes.wrong('runs', 'fn go(kept: &mut [u64], copy: [u64; 5])\n{\n    kept[0] = copy[0];\n    kept[1] = copy[1];\n}\n')) == 1)


def evasions():
    """Stores that do not look like `kept[i] = v` of a named function: a body, and a word of the reason why it is refused."""
    for body, reason in [
        ('let k = &mut *kept; k[0] = 1;', 'lends kept'),
        ('let k = &mut *kept; k[0] = 1;', 'stores 1 times'),
        ('let k = kept; k[0] = 1;', 'lends kept'),
        ('put(&mut kept[1], v);', 'lends kept'),
        ('put(v, &mut kept[1..]);', 'lends kept'),
        ('hold(Held { words: &mut *kept });', 'lends kept'),
        ('hold(Held { kept, v });', 'lends kept'),
        ('kept.swap(0, 1);', 'lends kept'),
        ('*kept = v;', 'stores 1 times'),
        ('(*kept)[0] = v;', 'stores 1 times'),
        ('kept[t[0]] = v;', 'stores 1 times'),
        ('kept[{ let i = 0; i }] = v;', 'stores 1 times'),
        ('kept[1..][0] = v;', 'stores 1 times'),
        ('kept[0] <<= 1;', 'stores 1 times'),
        ('s.words[0] = v;', 'stores 1 times'),
        ('match c { true => kept[0] = v, false => kept[1] = v }', 'stores 2 times'),
        ('let quoted = b"//"; kept[0] = v;', 'stores 1 times'),
        ('if v == 0 { return; } kept[0] = v;', 'stores 1 times'),
        ('gather(bytes, &mut *kept, n);', 'lends kept'),
        ('gather(bytes, kept, n);', 'lends kept'),
    ]:
        told = writes.wrong('runs', 'fn go(kept: &mut [u64], v: u64) {\n    %s\n}\n' % body)
        expect('an evasion: ' + body, any(reason in line for line in told))
    expect('a word lent alone', len(writes.wrong('runs', 'fn put(m: &mut u64, v: u64) { *m = v; }')) == 1)
    for body in [
        'let mut i = 0; while i < 4 { kept[i] = v; i += 1; }',
        'for i in 0..4 { kept[i] = v; }',
        'loop { kept[0] = v; }',
        'kept[0] = v; doorbell(&mut *kept, v);',
        'kept[0] = v; doorbell(kept, v);',
    ]:
        told = writes.wrong('control_calls', 'pub fn doorbell(kept: &mut [u64], v: u64) { %s }' % body)
        expect('a store repeated: ' + body, len(told) == 1 and 'has a loop, or lends' in told[0])


def allowed():
    """What the sources do with lent words."""
    for body in [
        'let ran = running::go(&mut *kept, queue, f, v); Ran(ran)',
        'match due::step(&mut *kept, f, d, from) { Removed(i) => { from = i + 1; } Consumed => { left -= 1; } }',
        'done(kept, v, &*kept, kept[t[0]], kept.len())',
        'tell(\n        &mut *kept,\n        v,\n    )',
        'let mut all = [0u64; 5]; gather(bytes, &mut all, n); state(&all[..n])',
        'let x: [u64; 2] = [v; 2]; if let At(i) = find(&*kept) { return; } let At(i) = find(kept) else { return; };',
        "let end = 'run: loop { if kept[0] <= v { break 'run v; } i += 1; };",
    ]:
        expect('allowed: ' + body, writes.wrong('runs', 'fn go(kept: &mut [u64], v: u64) {\n    %s\n}\n' % body) == [])
    gather = 'fn gather(out: &mut [u64], n: usize) { let mut i = 0; while i < n { out[i] = 0; i += 1; } }'
    expect('an array of its caller\'s is filled in a loop', writes.wrong('image_state', gather) == [])
    marks = 'fn mark_rows(kept: &[u64], n: usize, marks: &mut [bool]) { let mut j = 0; while j < n { marks[j] = true; j += 1; } }'
    expect('marks are made in a loop', writes.wrong('batches', marks) == [])
    expect('words are not', len(writes.wrong('batches', marks.replace('[bool]', '[u64]'))) == 1)
    expect('nor where both are lent', len(writes.wrong('batches', marks.replace('kept: &', 'kept: &mut '))) == 1)
    expect('lent fields', writes.wrong('registers', 'fn acknowledge(r: &mut Fields) { r.gerrorn = 1; }') == [])


def folders():
    """Each name of the table is one function's: a second of that name would have its stores too."""
    with tempfile.TemporaryDirectory() as root, contextlib.redirect_stdout(io.StringIO()):
        for (crate, name), count in writes.STORES.items():
            write(root, 'crates/%s/src/lib.rt' % crate, 'fn %s(kept: &mut [u64]) { %s }\n' % (name, 'kept[0] = 1; ' * count), 'a')
        write(root, 'crates/text/src/lib.rt', 'fn put(out: &mut [u64]) { out[0] = 1; }\n')
        write(root, 'crates/cases/src/main.rt', 'fn main() {}\n')
        write(root, 'crates.txt', '# programs\ntext:\nstores: words\ncases: stores text\n')
        expect('the functions of the table', writes.main(os.path.join(root, 'crates')) == 0)
        write(root, 'crates.txt', 'text:\nstores: words text\n')
        expect('the unit rests on what serves the programs', writes.main(os.path.join(root, 'crates')) == 1)
        write(root, 'crates.txt', 'text:\nstores: words\n')
        write(root, 'crates/due/src/more.rt', 'fn step(kept: &mut [u64]) { kept[0] = 1; kept[1] = 1; kept[2] = 1; }\n')
        expect('a second step', writes.main(os.path.join(root, 'crates')) == 1)


def versions():
    header = '#define TAHVENNO_VERSION_MAJOR 1\n#define TAHVENNO_VERSION_MINOR 2\n#define TAHVENNO_VERSION_PATCH 3\n#define TAHVENNO_VERSION "1.2.3"\n'
    files = {
        'include/tahvenno.h': header,
        'README.md': '# Name\n\nVersion 1.2.3, and not 1.0.0.\n',
        'CHANGELOG.md': '# Changes\n\n## 1.2.3, today\n\n## 1.2.2, before\n',
        'bindings/rust/Cargo.toml': '[package]\nversion = "1.2.3"\nedition = "2021"\n',
    }
    with tempfile.TemporaryDirectory() as root:
        for path, text in list(files.items())[:3]:
            write(root, path, text)
        expect('one version, no crate', version.agree(version.named(root)))
        write(root, 'bindings/rust/Cargo.toml', files['bindings/rust/Cargo.toml'])
        expect('one version', version.agree(version.named(root)))
        for path, text in files.items():
            write(root, path, text.replace('1.2.3', '1.2.4'))
            expect('another version in ' + path, not version.agree(version.named(root)))
            write(root, path, text.replace('1.2.3', ''))
            expect('no version in ' + path, not version.agree(version.named(root)))
            write(root, path, text)
        write(root, 'include/tahvenno.h', header.replace('PATCH 3', 'PATCH 4'))
        expect('other numbers in the header', not version.agree(version.named(root)))


citations()
logs()
groups()
left_by_search()
edits()
stores()
evasions()
allowed()
folders()
versions()
for what in FAILED:
    print('test_checks: ' + what)
print('test_checks: %d wrong' % len(FAILED))
sys.exit(1 if FAILED else 0)
