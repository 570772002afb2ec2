"""What Linux does not do, done to the SMMU by QEMU's test protocol, without a guest: probe.py EMULATOR FOLDER.

A device that copies by itself (edu) stands behind the SMMU; tables, queues and commands are made here, word by word.
"""

import os
import subprocess
import sys
from pathlib import Path

SMMU, ECAM, BAR, STREAM = 0x09050000, 0x3F000000, 0x10000000, 0x20
CR0, STRTAB_BASE, STRTAB_CFG = 0x20, 0x80, 0x88
CMDQ_BASE, CMDQ_PROD, CMDQ_CONS, EVENTQ_BASE, EVENTQ_PROD, EVENTQ_CONS = 0x90, 0x98, 0x9C, 0xA0, 0xA8, 0xAC
ON, EVENTS, COMMANDS = 1, 4, 8
STREAMS, CD, LEVEL1, LEVEL2, LEVEL3, PAGE, MAILBOX = (0x40200000 + 0x10000 * i for i in range(7))
QUEUE, RECORDS = 0x40500000, 0x40510000
MAPPED, UNMAPPED = 0x1000, 0x5000
BYPASS, STAGE1 = 4, 5


class Machine:
    """The emulator without a processor that runs, and the registers of its SMMU."""

    def __init__(self, emulator, folder, events_log2=4, **settings):
        self.report = folder / "report"
        folder.mkdir(parents=True, exist_ok=True)
        words = "-machine virt,iommu=smmuv3,highmem=off,gic-version=3 -accel qtest -m 512 -nodefaults -display none -qtest stdio"
        device = f"edu,addr={STREAM >> 3},dma_mask={(1 << 64) - 1}"
        own = {"TAHVENNO_STATE": str(folder / "state"), "TAHVENNO_REPORT": str(self.report), **settings}
        self.process = subprocess.Popen([emulator, *words.split(), "-device", device], env={**os.environ, **own}, text=True,
                                        stdin=subprocess.PIPE, stdout=subprocess.PIPE, stderr=subprocess.DEVNULL)
        self.tables()
        self.put(STRTAB_BASE, STREAMS, "q")
        self.put(STRTAB_CFG, 8)
        self.put(CMDQ_BASE, QUEUE | 4, "q")
        self.put(EVENTQ_BASE, RECORDS | events_log2, "q")
        self.put(CR0, ON | EVENTS | COMMANDS)
        self.ask(f"writel {ECAM + (STREAM << 12) + 0x10:#x} {BAR:#x}")
        self.ask(f"writew {ECAM + (STREAM << 12) + 0x04:#x} 6")

    def ask(self, line):
        self.process.stdin.write(line + "\n")
        self.process.stdin.flush()
        answer = self.process.stdout.readline().split()
        if not answer or answer[0] != "OK":
            sys.exit(f"probe: {line}: {answer}")
        return int(answer[1], 16) if len(answer) > 1 and answer[1].startswith("0x") else 0

    def put(self, register, value, size="l"):
        self.ask(f"write{size} {SMMU + register:#x} {value:#x}")

    def get(self, register):
        return self.ask(f"readl {SMMU + register:#x}")

    def store(self, address, *words):
        for place, word in enumerate(words):
            self.ask(f"writeq {address + 8 * place:#x} {word:#x}")

    def load(self, address):
        return self.ask(f"readl {address:#x}")

    def stream(self, config):
        self.store(STREAMS + 64 * STREAM, 1 | config << 1 | CD)

    def tables(self):
        """One page, by three levels of 4 KiB, in a space of 39 bits."""
        self.stream(STAGE1)
        self.store(CD, 25 | 1 << 30 | 1 << 31 | (4 | 1 << 9 | 1 << 13 | 1 << 14 | 7 << 16) << 32, LEVEL1)
        self.store(LEVEL1, LEVEL2 | 3)
        self.store(LEVEL2, LEVEL3 | 3)
        self.store(LEVEL3 + 8 * (MAPPED >> 12), PAGE | 1 << 10 | 1 << 6 | 3)

    def command(self, low, high=0):
        index = self.get(CMDQ_PROD)
        self.store(QUEUE + 16 * (index % 16), low, high)
        self.put(CMDQ_PROD, (index + 1) % 32)

    def sync(self, address, data):
        self.command(0x46 | 1 << 12 | data << 32, address)

    def copy(self, address):
        """The device writes four bytes of its own to an address; it does so a tenth of a second later."""
        for register, value in ((0x80, 0x40000), (0x88, address), (0x90, 4), (0x98, 3)):
            self.ask(f"writeq {BAR + register:#x} {value:#x}")
        self.ask("clock_step 200000000")

    def end(self):
        self.process.terminate()
        self.process.wait()
        pairs = (row.split("=") for row in self.report.read_text().split())
        return {name: int(number) for name, number in pairs}


def expect(what, found, wanted):
    print(f"probe: {what}: {found}")
    if found != wanted:
        sys.exit(f"probe: failed: {what} is {found} and not {wanted}")


def completions(start):
    """The wire is pulsed always, the message sent if it is offered and the whole field is not zero."""
    for offered in (0, 1):
        machine = start(f"completions-{offered}", **({"TAHVENNO_MSI": "1"} if offered else {}))
        machine.sync(MAILBOX, 28)
        machine.sync(0b11, 29)
        machine.sync(1 << 55 | MAILBOX + 8, 30)
        found = machine.load(MAILBOX), machine.load(MAILBOX + 8)
        counts = machine.end()
        expect(f"messages, offered {offered}", (*found, counts["sync_messages"]), (28 * offered, 30 * offered, 2 * offered))
        expect(f"pulses of the wire, offered {offered}", counts["sync_wired"], 3)


def own_registers(start):
    """Messages to CMDQ_PROD, which would ring for the next command inside the telling of the one before."""
    machine = start("own-registers", TAHVENNO_MSI="1")
    machine.store(QUEUE + 16, 0x46 | 1 << 12 | 31 << 32, MAILBOX)
    machine.sync(SMMU + CMDQ_PROD, 2)
    expect("PROD and CONS after a message to PROD", (machine.get(CMDQ_PROD), machine.get(CMDQ_CONS)), (1, 1))
    expect("the mailbox of the command that was not rung for", machine.load(MAILBOX), 0)
    machine.put(CMDQ_PROD, 2)
    expect("PROD and CONS, rung for", (machine.get(CMDQ_PROD), machine.get(CMDQ_CONS)), (2, 2))
    counts = machine.end()
    expect("messages and pulses", (counts["sync_messages"], counts["sync_wired"]), (2, 2))


def faults(start):
    """One record of an access that misses every row; the next waits while the queue is full, and comes when it is enabled again."""
    machine = start("faults", events_log2=0)
    machine.copy(UNMAPPED)
    expect("records of one fault", machine.get(EVENTQ_PROD), 1)
    machine.copy(UNMAPPED)
    expect("records in a full queue", machine.get(EVENTQ_PROD), 1)
    machine.put(CR0, ON | COMMANDS)
    machine.put(EVENTQ_PROD, 0)
    machine.put(EVENTQ_CONS, 0)
    expect("records while it is disabled", machine.get(EVENTQ_PROD), 0)
    machine.put(CR0, ON | EVENTS | COMMANDS)
    expect("records when it is enabled again", machine.get(EVENTQ_PROD), 1)
    counts = machine.end()
    expect("misses of STE and CD, faults, records, read out",
           tuple(counts[name] for name in ("misses_ste", "misses_cd", "faults", "events", "events_read")), (1, 1, 2, 2, 2))


def rows(start):
    """A CD that is missed when the guest's STE is no longer of stage 1, though its row still says so: the walk answers."""
    machine = start("rows")
    machine.copy(MAPPED)
    machine.command(0x05 | STREAM << 32, 1)
    machine.stream(BYPASS)
    machine.store(MAILBOX, ~0 & (1 << 64) - 1)
    machine.copy(MAILBOX)
    expect("what the device wrote under bypass", machine.load(MAILBOX), 0)
    counts = machine.end()
    expect("misses of a CD", counts["misses_cd"], 2)
    expect("rows filled", tuple(counts[name] for name in ("filled_ste", "filled_cd", "filled_stage1")), (1, 1, 1))


def main():
    emulator, folder = sys.argv[1], Path(sys.argv[2])

    def start(name, **settings):
        return Machine(emulator, folder / name, **settings)

    for probe in (completions, own_registers, faults, rows):
        probe(start)


main()
