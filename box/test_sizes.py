"""sizes.py on small listings that it must tell apart."""
import sys

sys.dont_write_bytecode = True
import sizes

INTEL = '''
0000000000000000 <leaf>:
   0:\tpush   %rbx
   1:\tmov    %rax,-0x10(%rsp)
   9:\tret

0000000000000000 <top>:
   0:\tsub    $0x40,%rsp
   4:\tcall   9 <top+0x9>
\t\t\t5: R_X86_64_PLT32\t.text.leaf-0x4
   9:\tadd    $0x40,%rsp
   d:\tret
'''
ARM = '''
0000000000000000 <leaf>:
   0:\tstr\tx30, [sp, #-16]!
   4:\tret

0000000000000000 <top>:
   0:\tsub\tsp, sp, #0x40
   4:\tbl\t0 <leaf>
\t\t\t4: R_AARCH64_CALL26\tleaf
   8:\tret
'''
SYMBOLS = '0000000000000000 000000000000000a t leaf\n0000000000000000 0000000000000014 T top\n'
FAILED = []


def refused(what, machine, listing, compiler, reason):
    try:
        sizes.table(machine, SYMBOLS, listing, compiler, ['top'])
    except sizes.Wrong as wrong:
        if reason in str(wrong):
            return
        what += ' (%s)' % wrong
    FAILED.append(what)


def accepted(machine, listing, compiler, row):
    if sizes.table(machine, SYMBOLS, listing, compiler, ['top'])[0] != [row]:
        FAILED.append('right: ' + machine)


told = 'leaf\t8\tstatic\ntop\t64\tstatic\n'
accepted('x86_64', INTEL, told, '| `top` | x86_64 | 20 | 30 | %d |' % (8 + 64 + 8 + 8 + 128))
refused('another frame', 'x86_64', INTEL, told.replace('64', '72'), 'by the compiler')
refused('a function untold', 'x86_64', INTEL, told[5:], 'other functions')
refused('too much', 'x86_64', INTEL.replace('$0x40', '$0x800'), told.replace('64', '2048'), 'more than 2048')
refused('itself', 'x86_64', INTEL.replace('leaf-0x4', 'top-0x4'), told, 'calls itself')
refused('outside', 'x86_64', INTEL.replace('leaf-0x4', 'memset-0x4'), told, 'not there')
refused('a register', 'x86_64', INTEL.replace('call   9 <top+0x9>', 'call   *%rax'), told, 'through a register')
refused('a dynamic frame', 'x86_64', INTEL.replace('sub    $0x40,%rsp', 'sub    %rax,%rsp'), told, 'not known')
told = 'leaf\t16\tstatic\ntop\t64\tstatic\n'
accepted('aarch64', ARM, told, '| `top` | aarch64 | 20 | 30 | 80 |')
refused('too much on Arm', 'aarch64', ARM.replace('#0x40', '#0x800'), told.replace('64', '2048'), 'more than 2048')
refused('a dynamic frame on Arm', 'aarch64', ARM.replace('sub\tsp, sp, #0x40', 'sub\tsp, sp, x9'), told, 'not known')
refused('a register on Arm', 'aarch64', ARM.replace('bl\t0 <leaf>', 'blr\tx8'), told, 'through a register')
for what in FAILED:
    print('test_sizes: ' + what)
sys.exit(1 if FAILED else 0)
