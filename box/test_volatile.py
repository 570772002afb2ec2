"""volatile.py on small texts that it must tell apart."""
import sys

sys.dont_write_bytecode = True
import volatile

# A word of a slice, two bytes of a slot, an answer by a copy, a mark; a function that writes to its own frame and to its result, one
# that hands on where its own result goes, and one that has it put into its frame; a loop over a slice, whose state is in a frame.
PLAIN = '''target datalayout = "e-m:e-i64:64-S128"
target triple = "x86_64-unknown-linux-gnu"

define internal void @"unit::parts::put"(ptr noundef %a0, i64 noundef %a1) #0 {
start:
  %r0 = alloca [16 x i8], align 8
  call void @llvm.memmove.p0.p0.i64(ptr %r0, ptr %a0, i64 16, i1 false)
  %r1 = alloca i64, align 8
  store i64 %a1, ptr %r1, align 8
  %r2 = load ptr, ptr %r0, align 8, !noundef !1
  %r3 = getelementptr inbounds nuw i8, ptr %r2, i64 8
  store i64 %a1, ptr %r3, align 8
  ret void
}

define internal void @"unit::bytes"(ptr noundef %a0, i8 noundef %a1) #0 {
start:
  %r0 = load ptr, ptr %a0, align 8, !noundef !1
  store i8 %a1, ptr %r0, align 1
  %r1 = getelementptr i8, ptr %r0, i64 1
  store i8 %a1, ptr %r1, align 1
  ret void
}

define internal noundef i64 @"unit::tell"(ptr noundef %a0, ptr noundef %a1) #0 {
start:
  call void @llvm.memmove.p0.p0.i64(ptr %a0, ptr %a1, i64 64, i1 false)
  ret i64 0
}

define internal void @"unit::mark"(ptr noundef %a0) #0 {
start:
  %r0 = load ptr, ptr %a0, align 8, !noundef !1
  store i8 1, ptr %r0, align 1
  ret void
}

define void @call(ptr noundef %a0, ptr noundef %a1) #0 {
start:
  %r0 = alloca [16 x i8], align 8
  store ptr %a1, ptr %r0, align 8
  %r1 = getelementptr i8, ptr %r0, i64 8
  store i64 0, ptr %r1, align 8
  call void @llvm.memmove.p0.p0.i64(ptr %a0, ptr %r0, i64 16, i1 false)
  %r2 = getelementptr i8, ptr %a0, i64 8
  store i64 1, ptr %r2, align 8
  ret void
}

define internal void @"unit::handed"(ptr noundef %a0, ptr noundef %a1) #0 {
start:
  call void @call(ptr %a0, ptr %a1)
  ret void
}

define i64 @whole(ptr noundef %a0) #0 {
start:
  %r0 = alloca [16 x i8], align 8
  %r1 = getelementptr i8, ptr %r0, i64 0
  call void @"unit::handed"(ptr noundef %r1, ptr %a0)
  %r2 = load ptr, ptr %r0, align 8, !noundef !1
  call void @"unit::parts::put"(ptr %r2, i64 1)
  ret i64 0
}

define internal { i8, ptr } @"core::slices::Iter::next::<i8>"(ptr noundef %a0) #0 {
start:
  %r0 = getelementptr i8, ptr %a0, i64 8
  store i64 1, ptr %r0, align 8
  ret { i8, ptr } zeroinitializer
}

define internal noundef zeroext i1 @"core::Iterator::all::<#c98aff49>"(ptr noundef %a0, i64 noundef %a1) #0 {
start:
  %r5 = alloca ptr, align 8
  store ptr %a0, ptr %r5, align 8
  %r6 = load ptr, ptr %r5, align 8, !noundef !1
  %r7 = call { i8, ptr } @"core::slices::Iter::next::<i8>"(ptr %r6)
  ret i1 true
}

define internal noundef i64 @"unit::fn::loops::all+FnMut::call_mut"(ptr noundef %a0) #0 {
start:
  %r8 = alloca [16 x i8], align 8
  store ptr %a0, ptr %r8, align 8
  %r9 = call i1 @"core::Iterator::all::<#c98aff49>"(ptr %r8, i64 1)
  ret i64 0
}

attributes #0 = { nounwind "probe-stack"="inline-asm" "target-cpu"="x86-64-v2" }
'''
LENT = {('unit', 'put'): 1, ('unit', 'bytes'): 2}
OTHER = {('unit', 'tell'): 1, ('unit', 'mark'): 1, ('unit', 'elsewhere'): 1}
LAYOUT, TRIPLE = PLAIN.split('\n')[:2]
PROCESSOR = 'attributes #0 = { nounwind "probe-stack"="inline-asm" "target-cpu"="x86-64-v2" }'
WORD, PLACE = '  store i64 %a1, ptr %r3, align 8', '  %r3 = getelementptr inbounds nuw i8, ptr %r2, i64 8'
BYTES = ['  store i8 %a1, ptr %r0, align 1', '  store i8 %a1, ptr %r1, align 1']
ANSWER, MARK = '  call void @llvm.memmove.p0.p0.i64(ptr %a0, ptr %a1, i64 64, i1 false)', '  store i8 1, ptr %r0, align 1'
HANDED = '  call void @"unit::handed"(ptr noundef %r1, ptr %a0)'
FRAME, SECOND = '  store i64 %a1, ptr %r1, align 8', '  store i64 0, ptr %r1, align 8'
HOLDS, LOOPS = '  store ptr %a0, ptr %r5, align 8', '  %r9 = call i1 @"core::Iterator::all::<#c98aff49>"(ptr %r8, i64 1)'
FAILED = []


def turned(text, *pairs):
    """A text with some of its lines exchanged; each has to be there once."""
    for old, new in pairs:
        if text.count(old + '\n') != 1:
            FAILED.append('not there once: ' + old)
        text = text.replace(old + '\n', new)
    return text


def marked(line):
    return line.replace('store', 'store volatile') + '\n'


def refused(what, reason, made, *given):
    try:
        made(*given)
    except volatile.Wrong as wrong:
        if reason in str(wrong):
            return
        what += ' (%s)' % wrong
    FAILED.append(what)


def choosing():
    """Texts that write otherwise than the tables say."""
    copy = '  call void @llvm.memmove.p0.p0.i64(ptr %s, ptr %%r1, i64 8, i1 false)\n'
    named = 'define internal noundef i64 @"unit::%s"(ptr noundef %%a0, ptr noundef %%a1) #0 {'
    for what, reason, *pairs in [
        ('a store that is gone', 'put writes 0 times', (WORD, '')),
        ('one more', 'put writes 2 times', (WORD, WORD + '\n' + WORD + '\n')),
        ('one more to other memory', 'mark writes 2 times', (MARK, MARK + '\n' + MARK + '\n')),
        ('an answer more', 'tell writes 2 times', (ANSWER, ANSWER + '\n' + ANSWER + '\n')),
        ('by another function', 'call writes 1 times', (SECOND, '  store i64 0, ptr %a1, align 8\n')),
        ('to a global', 'call writes 1 times', (SECOND, '  store i64 0, ptr @word, align 8\n')),
        ('to an element', 'call writes 1 times', ('  %r1 = getelementptr i8, ptr %r0, i64 8', '  %r1 = getelementptr i8, ptr %a1, i64 8\n')),
        ('through a choice', 'call writes 1 times', ('  %r1 = getelementptr i8, ptr %r0, i64 8', '  %r1 = select i1 %c, ptr %r0, ptr %a1\n')),
        ('a copy instead of a store', 'put copies', (WORD, copy % '%r2')),
        ('a copy more', 'put writes 2 times', (WORD, WORD + '\n' + copy % '%r2')),
        ('a copy by another function', 'call writes 1 times', (SECOND, copy % '%a1')),
        ('a fill by another function', 'call writes 1 times', (SECOND, '  call void @llvm.memset.p0.i64(ptr align 8 %a1, i8 0, i64 8, i1 false)\n')),
        ('a result that no call asks for', 'call writes 2 times', ('  call void @call(ptr %a0, ptr %a1)', '')),
        ('one that goes to lent memory', 'call writes 2 times', ('  call void @call(ptr %a0, ptr %a1)', '  call void @call(ptr %a1, ptr %a1)\n')),
        ('one that is handed on to it', 'call writes 2 times', (HANDED, '  call void @"unit::handed"(ptr noundef %a0, ptr %a0)\n')),
        ('by one of two calls', 'call writes 2 times', (HANDED, HANDED + '\n  call void @call(ptr %a0, ptr %a0)\n')),
        ('a loop\'s state in lent memory', 'next writes 1 times', (LOOPS, LOOPS.replace('%r8', '%a0') + '\n')),
        ('by one of two loops', 'next writes 1 times', (LOOPS, LOOPS + '\n' + LOOPS.replace('%r8', '%a0').replace('%r9', '%r10') + '\n')),
        ('a place that holds another pointer', 'next writes 1 times', (HOLDS, '  store ptr @word, ptr %r5, align 8\n')),
        ('one of two', 'next writes 1 times', (HOLDS, HOLDS + '\n  store ptr @word, ptr %r5, align 8\n')),
        ('what a copy put there', 'next writes 1 times', (HOLDS, HOLDS + '\n' + copy % '%r5')),
        ('a place that is handed on', 'next writes 1 times', (HOLDS, HOLDS + '\n  call void @"unit::mark"(ptr %r5)\n')),
        ('one whose place is kept', 'next writes 1 times', (HOLDS, HOLDS + '\n  store ptr %r5, ptr %r6, align 8\n'), ('  %r7 = call { i8, ptr } @"core::slices::Iter::next::<i8>"(ptr %r6)', '  %r7 = call { i8, ptr } @"core::slices::Iter::next::<i8>"(ptr %r6)\n')),
        ('a function that is kept', 'next writes 1 times', (HOLDS, HOLDS + '\n  store ptr @"core::slices::Iter::next::<i8>", ptr %r9, align 8\n')),
        ('one that is handed on', 'next writes 1 times', (HOLDS, HOLDS + '\n  call void @"unit::mark"(ptr @"core::slices::Iter::next::<i8>")\n')),
        ('one that nothing calls', 'next writes 1 times', ('  %r7 = call { i8, ptr } @"core::slices::Iter::next::<i8>"(ptr %r6)', '')),
        ('one that others can call', 'next writes 1 times', ('define internal { i8, ptr } @"core::slices::Iter::next::<i8>"(ptr noundef %a0) #0 {', 'define { i8, ptr } @"core::slices::Iter::next::<i8>"(ptr noundef %a0) #0 {\n')),
        ('a mark already', 'otherwise than by a plain store', (WORD, marked(WORD))),
        ('an exchange', 'otherwise than by a plain store', (WORD, '  %r4 = atomicrmw xchg ptr %r3, i64 %a1 seq_cst, align 8\n')),
        ('no function of that name', 'put is not there', ('define internal void @"unit::parts::put"(ptr noundef %a0, i64 noundef %a1) #0 {', 'define internal void @"unit::puts"(ptr noundef %a0, i64 noundef %a1) #0 {\n'), (WORD, '')),
        ('two of that name', 'mark is there twice', (named % 'tell', named % 'more::mark' + '\n')),
        ('one of two types that stores more', 'mark writes 2 times', (named % 'tell', named % 'mark::<a>' + '\n'), (MARK, MARK + '\n' + MARK + '\n')),
        ('a store to lent memory for two types', 'put is there twice', (named % 'tell', named % 'put::<a>' + '\n')),
    ]:
        refused(what, reason, volatile.chosen, turned(PLAIN, *pairs), LENT, OTHER)
    one = 'define internal void @"unit::mark%s"(ptr noundef %%a0) #0 {'
    two = turned(PLAIN, (named % 'tell', named % 'mark::<a>' + '\n'), (one % '', one % '::<b>' + '\n'))
    if volatile.chosen(two, LENT, OTHER) != volatile.chosen(PLAIN, LENT, OTHER):
        FAILED.append('other memory for two types')


def comparing():
    """Texts that are not the plain one with its stores to lent memory marked: the line that is named, and what it is turned into."""
    lines = volatile.chosen(PLAIN, LENT, OTHER)
    right = volatile.mark(PLAIN, lines)
    if right != turned(PLAIN, *[(line, marked(line)) for line in [WORD] + BYTES]):
        FAILED.append('other lines are marked')
    volatile.check(PLAIN, right, lines, 0)
    for what, line, new in [
        ('a mark that is missing', WORD, WORD),
        ('another', BYTES[1], BYTES[1]),
        ('one too many', FRAME, FRAME.replace('store', 'store volatile')),
        ('a mark of other memory', MARK, MARK.replace('store', 'store volatile')),
        ('an answer that is volatile', ANSWER, ANSWER.replace('false', 'true')),
        ('another value', WORD, WORD.replace('store', 'store volatile').replace('%a1', '0')),
        ('another alignment', WORD, WORD.replace('store', 'store volatile').replace('align 8', 'align 1')),
        ('another place', PLACE, PLACE.replace('i64 8', 'i64 16')),
        ('another target', LAYOUT, LAYOUT.replace('e-m', 'm')),
    ]:
        now = line.replace('store', 'store volatile') if line in [WORD] + BYTES else line
        refused(what, 'was\n%s\nand is\n%s' % (line, new), volatile.check, PLAIN, turned(right, (now, new + '\n')), lines, 0)
    refused('a line more', 'lines, and should be', volatile.check, PLAIN, right + '\n', lines, 0)
    refused('a line less', 'lines, and should be', volatile.check, PLAIN, turned(right, (MARK, '')), lines, 0)
    swapped = turned(right, (PLACE + '\n' + marked(WORD)[:-1], marked(WORD) + PLACE + '\n'))
    refused('two exchanged', 'was\n' + PLACE, volatile.check, PLAIN, swapped, lines, 0)


def retargeting():
    """The same for another machine, where three lines name the target."""
    lines = volatile.chosen(PLAIN, LENT, OTHER)
    three = [(LAYOUT, LAYOUT.replace('e-m:e-', 'e-') + '\n'), (TRIPLE, TRIPLE.replace('x86_64', 'aarch64') + '\n'),
             (PROCESSOR, PROCESSOR.replace(' "target-cpu"="x86-64-v2"', '') + '\n')]
    right = volatile.mark(PLAIN, lines)
    other = turned(right, *three)
    volatile.check(PLAIN, other, lines, 3)
    for what, reason, text, targets in [
        ('a target that should be the same', 'was\n' + LAYOUT, other, 0),
        ('one of the three as it was', '2 lines name', turned(right, *three[:2]), 3),
        ('a fourth line', 'was\n' + PLACE, turned(other, (PLACE, PLACE.replace('i64 8', 'i64 16') + '\n')), 3),
        ('a mark that is missing there', 'was\n' + WORD, turned(other, (marked(WORD)[:-1], WORD + '\n')), 3),
        ('another attribute', 'was\n' + PROCESSOR, turned(right, (PROCESSOR, PROCESSOR.replace('nounwind', 'cold') + '\n')), 3),
        ('no layout', 'was\n' + LAYOUT, turned(right, (LAYOUT, '\n')), 3),
    ]:
        refused(what, reason, volatile.check, PLAIN, text, lines, targets)


choosing()
comparing()
retargeting()
for what in FAILED:
    print('test_volatile: ' + what)
sys.exit(1 if FAILED else 0)
