"""make.py: writes the dumps of the cases beside it, and those of the kit's own run in ../data, from named fields.

What the program says of them, `out` and ../stdout, is looked at by a person and is not written here.
"""
import os

HERE = os.path.dirname(os.path.abspath(__file__))

# Where the fields stand: word, lowest bit, width.
CONTROL = {'rd': (0, 0, 20), 'wr': (0, 20, 20), 'err': (0, 40, 7), 'gerror': (0, 47, 1), 'gerrorn': (0, 48, 1),
           'enabled': (0, 49, 1), 'log2size': (0, 50, 5), 'pending': (0, 55, 1), 'zero': (0, 56, 8)}
ROW = {'valid': (0, 0, 1), 'kind': (0, 1, 2), 'last': (0, 3, 1), 'is_global': (0, 4, 1), 'span': (0, 5, 6), 'mark': (0, 11, 2),
       'vmid': (0, 16, 16), 'asid': (0, 32, 16),
       'mtcfg': (0, 48, 1), 'new_memattr': (0, 49, 4), 'shcfg': (0, 53, 2), 'alloccfg': (0, 55, 4), 'instcfg': (0, 59, 2),
       'privcfg': (0, 61, 2), 'memattr': (0, 48, 4), 'sh': (0, 52, 2), 'hints': (0, 54, 6),
       'stream': (1, 0, 32), 'substream': (1, 32, 20), 'config': (1, 52, 3), 'input': (2, 0, 64), 'output': (3, 0, 64)}
REGION = {'valid': (0, 0, 1), 'last': (0, 1, 1), 'size': (0, 2, 4), 'zero': (0, 6, 58), 'base': (1, 0, 64)}
INDEX = {'rd': (0, 0, 20), 'wr': (0, 20, 20), 'overflow': (0, 40, 1), 'acknowledged': (0, 41, 1), 'n': (0, 42, 5)}
COMMAND = {'code': (0, 0, 8), 'bit8': (0, 8, 1), 'substream': (0, 12, 20), 'stream': (0, 32, 32), 'vmid': (0, 32, 16), 'asid': (0, 48, 16),
           'cs': (0, 12, 2), 'num': (0, 12, 5), 'scale': (0, 20, 5),
           'leaf': (1, 0, 1), 'range': (1, 0, 5), 'ttl128': (1, 7, 1), 'ttl': (1, 8, 2), 'size': (1, 8, 4), 'tg': (1, 10, 2),
           'page': (1, 12, 52)}

STE, CD, STAGE1, STAGE2 = range(4)
EL2, EL2_E2H = 1, 2
ABORT, BYPASS, BY_STAGE1, BY_STAGE2, BOTH = 0, 4, 5, 6, 7
NGNRE, NC, WT_WB, WB = 1, 5, 11, 15
NSH, OSH, ISH = 0, 2, 3
S1P, S2P, ASID16, VMID16, HYP, RIL, DPT, E2H = (1 << n for n in range(8))
SIZE_4KB, SIZE_16KB, SIZE_2MB, SIZE_512GB, SIZE_RESERVED = 0, 1, 3, 9, 12


def packed(places, words, fields):
    """Words with each field at its place."""
    made = [0] * words
    for name, value in fields.items():
        word, low, width = places[name]
        assert 0 <= value < 1 << width, name
        made[word] |= value << low
    return made


def control(**fields):
    return packed(CONTROL, 1, {'enabled': 1, **fields})


def row(kind, **fields):
    return packed(ROW, 4, {'valid': 1, 'kind': kind, **fields})


def last(kind, **fields):
    return row(kind, last=1, **fields)


def region(**fields):
    return packed(REGION, 2, {'valid': 1, **fields})


def index(**fields):
    return packed(INDEX, 1, fields)


def command(code, **fields):
    return packed(COMMAND, 2, {'code': code, **fields})


EMPTY = [0, 0, 0, 0]
NO_REGION = [0, 0]


def data(words):
    return b''.join(word.to_bytes(8, 'little') for word in words)


def queue(slots, commands, first=0):
    """A queue of so many slots with commands from slot `first` on, going round."""
    made = [[0, 0] for _ in range(slots)]
    for k, one in enumerate(commands):
        made[(first + k) % slots] = one
    return data(sum(made, []))


def write(folder, files):
    os.makedirs(folder, exist_ok=True)
    for name, content in files.items():
        with open(os.path.join(folder, name), 'wb') as opened:
            opened.write(content)


OPTIONS = ('queue', 'table', 'events')


def args_of(files, features):
    words = ['kept'] + [word for name in OPTIONS if name in files for word in ('--' + name, name)]
    words += ['--features', '%02x' % features] if features is not None else []
    return ''.join(word + '\n' for word in words).encode()


def case(name, features=None, args=None, **files):
    """A case: its files, and the program's arguments, a line each."""
    files['args'] = args_of(files, features) if args is None else ''.join(word + '\n' for word in args).encode()
    write(os.path.join(HERE, name), files)


# Rows of every kind.
STREAM = last(STE, stream=0x100, vmid=5, config=BY_STAGE1)
STREAM_OVERRIDES = last(STE, stream=0x101, vmid=5, config=BOTH, mtcfg=1, new_memattr=WT_WB, shcfg=ISH, alloccfg=0xe, instcfg=2, privcfg=3)
STREAM_ABORTS = last(STE, stream=0x102, config=ABORT, shcfg=1)
STREAMS = row(STE, stream=0x140, span=6)
CONTEXT = last(CD, stream=0x100, substream=0x3, asid=0x12)
CONTEXTS = row(CD, stream=0x100)
PAGE = last(STAGE1, vmid=5, asid=0x12, span=12, input=0x1000, output=0x80001000, memattr=WB, sh=ISH, hints=0x1b)
BLOCK = last(STAGE1, vmid=5, asid=0x12, is_global=1, span=21, input=0x200000, output=0x40000000, memattr=NGNRE, sh=OSH)
KERNEL = last(STAGE1, vmid=5, asid=0x12, span=16, input=0xfff0_0000_0001_0000, output=0x90000, memattr=NC, sh=OSH)
WALK = row(STAGE1, vmid=5, asid=0x12, span=30, input=0x40000000)
HOST = last(STAGE1, mark=EL2, span=12, input=0x7000, output=0x8000, memattr=WB, sh=NSH, hints=0x7)
HOST_E2H = last(STAGE1, mark=EL2_E2H, asid=9, span=12, input=0x7000, output=0x9000, memattr=WB, sh=NSH)
SECOND = last(STAGE2, vmid=5, span=21, input=0x80000000, output=0x100000000, memattr=WB, sh=ISH)
SECOND_WALK = row(STAGE2, vmid=5, span=30, input=0xc0000000)

# Commands, legal with every feature.
PREFETCH = command(0x01)
CFGI_STE = command(0x03, stream=0x100, leaf=1)
CFGI_STE_RANGE = command(0x04, stream=0x145, range=5)
CFGI_CD = command(0x05, stream=0x100, substream=3, leaf=1)
CFGI_CD_ALL = command(0x06, stream=0x100)
NH_ALL = command(0x10, vmid=5)
NH_ASID = command(0x11, vmid=5, asid=0x12)
NH_VA = command(0x12, vmid=5, asid=0x12, page=0x1)
NH_VA_RANGE = command(0x12, vmid=5, asid=0x12, page=0x200, num=3, scale=2, tg=1, ttl=3, leaf=1)
NH_VAA_TOP = command(0x13, vmid=5, page=0xfffff_ffff_fffe, num=1, scale=1, tg=3, ttl=2, ttl128=1)
EL2_ALL = command(0x20)
EL2_ASID = command(0x21, asid=9)
EL2_VA = command(0x22, asid=9, page=0x7)
EL2_VAA = command(0x23, page=0x7)
S12_VMALL = command(0x28, vmid=6)
S2_IPA = command(0x2a, vmid=5, page=0x80000)
NSNH_ALL = command(0x30)
SYNC = command(0x46, cs=1)
SYNC_SILENT = command(0x46, cs=2)
DPTI_ALL = command(0x70)
DPTI_PA = command(0x73, page=0x200, size=SIZE_2MB)
DPTI_PA_RESERVED = command(0x73, page=0x200, size=SIZE_RESERVED, leaf=1)
# and illegal ones
UNKNOWN = command(0x43)
RESERVED = command(0x11, vmid=5, asid=0x12, bit8=1, page=0x1)
BAD_CS = command(0x46, cs=3)
BAD_RANGE = command(0x12, vmid=5, asid=0x12, page=1, tg=1)

# Regions and records.
TABLE = region(last=1, size=SIZE_4KB, base=0x5000) + NO_REGION + region(last=1, size=SIZE_2MB, base=0x200000) + region(size=SIZE_512GB, base=0x8000000000)
RECORDS = [0x10, 0x1, 0x0, 0x0] + [0x2, 0x100, 0x1000, 0xffff000000001000]

ALL = S1P | S2P | ASID16 | VMID16 | HYP | RIL | DPT


def kept(rows, **fields):
    return data(control(**fields) + sum(rows, []))


def own_run():
    """The kit's own run: every kind of row, and most that there is to tell."""
    rows = [STREAM, STREAM_OVERRIDES, STREAM_ABORTS, STREAMS, CONTEXT, CONTEXTS, PAGE, EMPTY, BLOCK, KERNEL, WALK, HOST, HOST_E2H, SECOND,
            SECOND_WALK]
    commands = [PREFETCH, CFGI_STE, NH_VA, NH_VA_RANGE, EL2_VAA, SYNC, S2_IPA, DPTI_PA, SYNC, BAD_CS, NSNH_ALL]
    files = {'kept': kept(rows, rd=0x1d, wr=0x8, log2size=4), 'queue': queue(16, commands, 0xd), 'table': data(TABLE),
             'events': data(index(rd=1, wr=3, n=1, overflow=1) + RECORDS)}
    write(os.path.join(HERE, '..', 'data'), files)
    with open(os.path.join(HERE, '..', 'args'), 'wb') as opened:
        opened.write(args_of(files, ALL))


def healthy():
    small = [STREAM, CONTEXT, PAGE, EMPTY]
    case('nothing-to-look-at', ALL, kept=kept(small, rd=2, wr=5, log2size=3), queue=queue(8, [NH_VA, CFGI_CD, SYNC_SILENT], 2),
         table=data(TABLE), events=data(index(n=0, rd=1, wr=1) + EMPTY))
    case('kept-memory-alone', kept=kept(small, rd=2, wr=5, log2size=3))
    case('features-assumed', kept=kept(small, log2size=2, wr=3), queue=queue(4, [NH_ASID, command(0x10), S12_VMALL]))
    case('wide-asid-without-asid16', S1P | S2P, kept=kept(small, log2size=1, wr=2),
         queue=queue(2, [command(0x11, vmid=5, asid=0x112), NH_ASID]))
    case('empty-rows', ALL, kept=kept([EMPTY, [0, 7, 7, 7]]), queue=queue(1, []), table=data(NO_REGION))
    commands = [PREFETCH, CFGI_STE, CFGI_STE_RANGE, CFGI_CD, CFGI_CD_ALL, NH_ALL, NH_ASID, NH_VA, NH_VA_RANGE, NH_VAA_TOP, EL2_ALL,
                EL2_ASID, EL2_VA, EL2_VAA, S12_VMALL, S2_IPA, NSNH_ALL, SYNC, SYNC_SILENT, DPTI_ALL, DPTI_PA, DPTI_PA_RESERVED,
                command(0x02), command(0x04, range=31)]
    case('every-command', ALL | E2H, kept=kept([HOST_E2H], wr=len(commands), log2size=5, enabled=0), queue=queue(32, commands))
    illegal = [UNKNOWN, RESERVED, BAD_CS, BAD_RANGE, DPTI_ALL, EL2_VA, command(0x02, bit8=1)]
    case('illegal-commands', S1P | S2P | ASID16 | VMID16 | RIL, kept=kept(small, rd=6, wr=13, log2size=3),
         queue=queue(8, illegal, 6))


def to_look_at():
    doubled = [STREAM, last(STE, stream=0x100, vmid=6, config=BYPASS), CONTEXT, CONTEXT, PAGE, BLOCK,
               last(STAGE1, vmid=5, asid=0x13, span=12, input=0x201000, output=0x3000, memattr=WB, sh=ISH),
               last(STAGE1, vmid=5, asid=0x12, span=16, input=0x0, output=0x10000, memattr=WB, sh=ISH),
               last(STAGE1, vmid=5, asid=0x12, is_global=1, span=12, input=0x1000, output=0x4000, memattr=WB, sh=ISH),
               SECOND, last(STAGE2, vmid=5, span=30, input=0x80000000, output=0x40000000, memattr=WB, sh=ISH), WALK, HOST, HOST]
    case('doubled-and-shadowed-rows', ALL, kept=kept(doubled))
    case('error-active-and-interrupt-pending', ALL, kept=kept([PAGE], rd=0, wr=2, log2size=1, err=1, gerror=1, pending=1),
         queue=queue(2, [BAD_CS, SYNC]))
    case('interrupt-stays-pending', ALL, kept=kept([PAGE], wr=2, log2size=2, pending=1), queue=queue(4, [SYNC, NH_ALL]))
    case('full-queue-not-enabled', ALL, kept=kept([PAGE], rd=3, wr=7, log2size=2, enabled=0), queue=queue(4, [SYNC, NH_ALL, SYNC, NH_VA], 3))
    case('marked-rows-without-hyp', S1P | ASID16, kept=kept([HOST, PAGE, HOST_E2H], wr=1), queue=queue(1, [EL2_ALL]))
    case('overflow-of-the-recorder', kept=kept([EMPTY]), events=data(index(rd=3, wr=1, n=1, overflow=1) + RECORDS))


def damaged():
    small = kept([STREAM, PAGE], wr=1, log2size=1)
    commands = queue(2, [NH_VA, command(0x30)])
    case('empty-file', ALL, kept=b'', queue=commands)
    case('broken-last-word', ALL, kept=small + b'\x01\x02\x03', queue=commands)
    case('half-a-row', ALL, kept=small[:-16], queue=commands)
    case('no-row', kept=data(control()))
    case('file-too-long', kept=kept([STREAM] + [EMPTY] * 1000))
    rows = [STREAM, last(STAGE1, vmid=5, asid=0x12, span=5, input=0x1000), PAGE, row(CD, stream=0x100, mark=1),
            last(STAGE2, vmid=5, span=12, input=0xfff0_0000_0000_1000, output=0x2000, memattr=4, sh=1), [2, 0, 0, 0],
            last(STAGE1, mark=3, vmid=1, span=12, input=0x1000, output=0x2000, memattr=WB, sh=ISH)]
    case('bad-rows', ALL, kept=kept(rows, wr=1, log2size=1), queue=commands)
    case('bad-control-word', ALL, kept=kept([PAGE], rd=0x12, wr=0x2, log2size=1, err=2, gerror=1, zero=0x40), queue=commands)
    case('queue-too-large-for-the-unit', kept=kept([PAGE], log2size=13))
    case('indexes-too-far-apart', kept=kept([PAGE], wr=3, log2size=1, gerrorn=1))
    case('bad-queue-length', ALL, kept=small, queue=commands + b'\x46\x10\0\0\0')
    case('queue-file-too-long', ALL, kept=small, queue=commands + bytes(65536))
    case('bad-region', ALL, kept=small, queue=commands, table=data(TABLE + region(size=11, base=0x1000) + region(size=SIZE_16KB, base=0x5000)
                                                                   + region(size=0, zero=1, base=1 << 52) + [2, 0]))
    case('bad-table-length', ALL, kept=small, queue=commands, table=data(TABLE + [1]))
    case('table-file-too-long', kept=small, table=data(TABLE + NO_REGION * 126))
    case('bad-recorder-length', kept=small, events=data(index(rd=0, wr=1, n=1) + RECORDS + RECORDS[:4] + [5]))
    case('bad-index-word', kept=small, events=data(index(rd=0, wr=3, n=1, overflow=1, acknowledged=1) + RECORDS))
    case('overflow-of-a-bad-index-word', kept=small, events=data(index(rd=0, wr=3, n=1, overflow=1) + RECORDS))
    case('recorder-of-another-n', kept=small, events=data(index(rd=0, wr=1, n=2) + RECORDS))
    case('empty-recorder', kept=small, events=b'')


def called_wrongly():
    small = kept([PAGE])
    case('help', args=['--help'])
    case('no-arguments', args=[])
    case('an-unknown-option', args=['kept', '--rows', 'kept'], kept=small)
    case('an-option-without-a-file', args=['kept', '--queue'], kept=small)
    case('features-of-one-digit', args=['kept', '--features', '5'], kept=small)
    case('features-that-are-no-digits', args=['kept', '--features', '0g'], kept=small)
    case('a-file-that-is-not-there', args=['kept', '--queue', 'nothing-here'], kept=small)
    case('a-folder-for-a-file', args=['.'], kept=small)


if __name__ == '__main__':
    own_run()
    healthy()
    to_look_at()
    damaged()
    called_wrongly()
