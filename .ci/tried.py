"""tried.py [--jobs N] [CRATE [EDIT.. | EDIT:MEMBER.. | --alone]]: tries must-fail edits, and judges that each is refused for a failed fact.

Without a name those of all crates; of one crate all, or those named, or one member of an edit that holds several; with --alone each
member without the others. An edit is applied to a copy of the crate outside the repository, over what `rt check` proved of the crate as
it stands; `rt check` has to refuse it there, and refusals.py judges by all that it says whether a fact failed. What it said is in
target/must-fail/CRATE/EDIT.log.

What was refused is kept on this machine by a checksum of all that the check read. So a run tries only what changed and what rests on it,
in another checkout too.
"""
import argparse
import concurrent.futures
import contextlib
import fcntl
import functools
import hashlib
import itertools
import os
import re
import shutil
import subprocess
import sys
import tempfile
import time

sys.dont_write_bytecode = True
sys.path.insert(0, os.path.dirname(os.path.abspath(__file__)))
import refusals

ROOT = os.path.dirname(os.path.dirname(os.path.abspath(__file__)))
LOGS = os.path.join(ROOT, 'target', 'must-fail')
CACHE = os.path.join(os.environ.get('XDG_CACHE_HOME') or os.path.expanduser('~/.cache'), 'tahvenno')
# The folders of a crate that its check reads, and the most memory that a check takes, in KB.
PARTS = ('src', 'specs', 'proofs')
ROOM_OF_CHECK = 3000000
# A kept log that no run asked for in so many days goes.
DAYS = 60


def read(path):
    with open(path, encoding='utf-8') as opened:
        return opened.read()


@functools.cache
def lines():
    """The crates of crates.txt, in its order, each with its line."""
    found = [line.split('#')[0] for line in read(os.path.join(ROOT, 'crates.txt')).split('\n')]
    return {line.split(':')[0].split()[0]: line for line in found if ':' in line}


@functools.cache
def needs():
    """The same, each with those of them that its line names."""
    return {crate: [name for name in line.split(':')[1].split() if name in lines()] for crate, line in lines().items()}


def below(crate):
    """The crates that a crate rests on, in the order of crates.txt."""
    found, left = set(), [crate]
    while left:
        new = set(needs()[left.pop()]) - found
        found |= new
        left += new
    return [name for name in needs() if name in found]


def edits(crate):
    folder = os.path.join(ROOT, 'crates', crate, 'must-fail')
    return sorted(name[:-5] for name in os.listdir(folder) if name.endswith('.edit')) if os.path.isdir(folder) else []


def text_of(crate, label):
    """The text of an edit, or of the one member that is named behind a colon."""
    name, _, member = label.partition(':')
    text = read(os.path.join(ROOT, 'crates', crate, 'must-fail', name + '.edit'))
    parts = ('\n' + text).split('\n# %s\n' % member)
    if member and len(parts) != 2:
        sys.exit('%s/%s has no member %s' % (crate, name, member))
    return parts[1].split('\n# ')[0] if member else text


def alone(crate, label):
    """The labels of an edit's members, or its own where it holds no other."""
    text = text_of(crate, label)
    return ['%s:%s' % (label, name) for name in re.findall(r'^# (\S+)$', text, re.M)] if refusals.named(text) else [label]


def replacements(text):
    """The (file, old, new) of an edit; lines of another kind are comments."""
    file = old = None
    for line in text.split('\n'):
        if line.startswith('file: '):
            file = line[6:].strip()
        elif line.startswith('old: '):
            old = line[5:]
        elif line.startswith('new:'):
            yield file, old, line[4:].removeprefix(' ')


def edited(folder, text):
    """The files of a crate's folder that an edit changes, as it leaves them; a ValueError where a text does not stand there once."""
    changed = {}
    for file, old, new in replacements(text):
        source = changed[file] if file in changed else read(os.path.join(folder, file))
        if source.count(old) != 1:
            raise ValueError('%s has the text %d times: %s' % (file, source.count(old), old))
        changed[file] = source.replace(old, new)
    if not changed:
        raise ValueError('it changes nothing')
    return changed


def digest(root, crate, changed=None):
    """A checksum of what a check reads of one crate: its line of crates.txt and its files, some of them changed."""
    folder = os.path.join(root, 'crates', crate)
    files = [os.path.relpath(os.path.join(at, name), folder) for part in PARTS for at, _, names in os.walk(os.path.join(folder, part)) for name in names]
    texts = {file: read(os.path.join(folder, file)) for file in sorted(files)} | (changed or {})
    return hashlib.sha256(repr((lines()[crate], texts)).encode()).hexdigest()


@functools.cache
def digest_here(crate):
    return digest(ROOT, crate)


@functools.cache
def toolchain():
    return subprocess.run(['rt', 'version'], capture_output=True, text=True, check=True).stdout


def kept_log(own, lower):
    """The file of the log of a check that read what has these checksums."""
    return os.path.join(CACHE, 'must-fail', hashlib.sha256(repr((toolchain(), own, lower)).encode()).hexdigest())


def write_whole(path, text):
    """Writes a file apart and then gives it its name, so that no other run meets half of it."""
    os.makedirs(os.path.dirname(path), exist_ok=True)
    with tempfile.NamedTemporaryFile('w', encoding='utf-8', dir=os.path.dirname(path), delete=False) as opened:
        opened.write(text)
    os.replace(opened.name, path)


def forget():
    """Removes the kept logs that no run asked for in a long time."""
    folder = os.path.join(CACHE, 'must-fail')
    for entry in os.scandir(folder) if os.path.isdir(folder) else ():
        with contextlib.suppress(FileNotFoundError):
            if entry.stat().st_mtime < time.time() - DAYS * 86400:
                os.remove(entry.path)


@contextlib.contextmanager
def room():
    """A folder for one check: the first that no other check is in. There are few of them, since rt notes each place that it checked in."""
    os.makedirs(os.path.join(CACHE, 'rooms'), exist_ok=True)
    for number in itertools.count():
        place = os.path.join(CACHE, 'rooms', str(number))
        with open(place + '.lock', 'w', encoding='utf-8') as lock:
            try:
                fcntl.flock(lock, fcntl.LOCK_EX | fcntl.LOCK_NB)
            except BlockingIOError:
                continue
            shutil.rmtree(place, ignore_errors=True)
            try:
                yield place
            finally:
                shutil.rmtree(place, ignore_errors=True)
            return


def link(one, other):
    """A second name for a file that rt replaces and never writes into, or a copy where there can be none."""
    try:
        os.link(one, other)
    except OSError:
        shutil.copy2(one, other)


def copy_kept(one, other):
    (link if one.endswith('.oantt') else shutil.copy2)(one, other)


def lay_out(place, crate, changed):
    """A repository of the crate, with these files in place of its own, and those below it; with what was proved and built of them."""
    names = [*below(crate), crate]
    os.makedirs(place)
    with open(os.path.join(place, 'crates.txt'), 'w', encoding='utf-8') as opened:
        opened.writelines(lines()[name] + '\n' for name in names)
    for name in names:
        source, to = os.path.join(ROOT, 'crates', name), os.path.join(place, 'crates', name)
        made, copy = ('out/incremental', copy_kept) if name == crate else ('out/rlib', link)
        for part in PARTS:
            if os.path.isdir(os.path.join(source, part)):
                shutil.copytree(os.path.join(source, part), os.path.join(to, part))
        if os.path.isdir(os.path.join(source, made)):
            shutil.copytree(os.path.join(source, made), os.path.join(to, made), copy_function=copy)
    for file, text in changed.items():
        with open(os.path.join(place, 'crates', crate, file), 'w', encoding='utf-8') as opened:
            opened.write(text)


def check(folder, *flags):
    """The status of `rt check` in a crate's folder, and all that it says."""
    ran = subprocess.run(['rt', 'check', *flags], cwd=folder, stdin=subprocess.DEVNULL, stdout=subprocess.PIPE, stderr=subprocess.STDOUT,
                         encoding='utf-8', errors='replace', check=False)
    return ran.returncode, ran.stdout


def tried(crate, changed):
    """The status and the log of a check of the crate with these files changed. The log of a refusal is kept."""
    with room() as place:
        lay_out(place, crate, changed)
        status, log = check(os.path.join(place, 'crates', crate), '--jobs', '1')
        # by what was read, which need not be what stands in the checkout by now
        if is_refusal(status, log):
            write_whole(kept_log(digest(place, crate), [digest(place, name) for name in below(crate)]), log)
        return status, log


def is_refusal(status, log):
    return status == 1 and re.search('^logic=not-proved', log, re.M) is not None


def known(crate, changed):
    """The log that is kept of the same check, or None."""
    path = kept_log(digest(ROOT, crate, changed), [digest_here(name) for name in below(crate)])
    try:
        os.utime(path)
        return read(path)
    except FileNotFoundError:
        return None


class Edit:
    """One edit to try: the files that it changes, and what is known of its refusal: why it is none, or its log."""

    def __init__(self, crate, label):
        self.crate, self.label, self.text, self.why, self.log, self.changed = crate, label, text_of(crate, label), None, None, {}
        self.took = 'kept'
        try:
            self.changed = edited(os.path.join(ROOT, 'crates', crate), self.text)
            self.log = known(crate, self.changed)
        except (ValueError, FileNotFoundError) as error:
            self.why = str(error)

    def is_open(self):
        return self.why is None and self.log is None

    def attempt(self):
        began = time.monotonic()
        status, self.log = tried(self.crate, self.changed)
        self.took = '%.0f s' % (time.monotonic() - began)
        if not is_refusal(status, self.log):
            self.why = 'not refused' if status == 0 else 'its check ended with status %d: %s' % (status, self.log[:300].strip())

    def judge(self):
        """Says what became of it, leaves its log to be read, and gives whether it is refused for a failed fact."""
        path = os.path.join(LOGS, self.crate, self.label + '.log')
        if self.log is None:
            with contextlib.suppress(FileNotFoundError):
                os.remove(path)
        else:
            write_whole(path, self.log)
        whys = [self.why] if self.why else refusals.judged(self.crate, self.text, self.log)
        print('%s/%s: %s (%s)' % (self.crate, self.label, '; '.join(whys) or 'refused', self.took), flush=True)
        return not whys


def prove(wanted):
    """Proves the crates with an edit to try, as they stand: the edits of one that is not proved show nothing."""
    for crate in needs():
        own = [edit for edit in wanted if edit.crate == crate]
        if own and check(os.path.join(ROOT, 'crates', crate))[0] != 0:
            for edit in own:
                edit.why = '%s is not proved as it stands' % crate


def lanes():
    """How many checks at once: one a processor, and no more than have room, since one that runs out of memory says nothing."""
    with open('/proc/meminfo', encoding='utf-8') as opened:
        free = int(re.search(r'^MemAvailable: +(\d+)', opened.read(), re.M).group(1))
    return max(1, min(len(os.sched_getaffinity(0)), free // ROOM_OF_CHECK))


def main(arguments):
    given = argparse.ArgumentParser(usage=__doc__)
    given.add_argument('--jobs', type=int)
    given.add_argument('--alone', action='store_true')
    given.add_argument('crate', nargs='?')
    given.add_argument('labels', nargs='*')
    given = given.parse_args(arguments)
    forget()
    labels = [(crate, label) for crate in ([given.crate] if given.crate else needs()) for label in given.labels or edits(crate)]
    if given.alone:
        labels = [(crate, one) for crate, label in labels for one in alone(crate, label)]
    every = [Edit(*it) for it in labels]
    prove([edit for edit in every if edit.is_open()])
    new = [edit for edit in every if edit.is_open()]
    with concurrent.futures.ThreadPoolExecutor(given.jobs or lanes()) as pool:
        waits = {edit: pool.submit(edit.attempt) for edit in new}
        wrong = 0
        for edit in every:
            if edit in waits:
                waits[edit].result()
            wrong += not edit.judge()
    members = sum(max(1, len(refusals.named(edit.text))) for edit in every)
    print('tried: %d edits in %d checks, %d of them new; %d checks not refused for failed facts' % (members, len(every), len(new), wrong))
    return 1 if wrong or not every else 0


if __name__ == '__main__':
    sys.exit(main(sys.argv[1:]))
