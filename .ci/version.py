"""version.py: the header, README, CHANGELOG and the Rust crate, if it is there, name one version."""
import os
import re
import sys

HEADER = 'include/tahvenno.h'
# Where each names it first, and whether the file has to be there.
PLACES = [
    (HEADER, r'^#define TAHVENNO_VERSION "(.*)"$', True),
    ('README.md', r'^Version (\d+\.\d+\.\d+)\b', True),
    ('CHANGELOG.md', r'^## (\d+\.\d+\.\d+)\b', True),
    ('bindings/rust/Cargo.toml', r'^version = "(.*)"$', False),
]


def read(root, path):
    with open(os.path.join(root, path), encoding='utf-8') as opened:
        return opened.read()


def numbers(header):
    """The header's three numbers, with dots between them."""
    parts = [re.search(r'^#define TAHVENNO_VERSION_%s (\d+)$' % part, header, re.M) for part in ('MAJOR', 'MINOR', 'PATCH')]
    return '.'.join(part.group(1) for part in parts) if all(parts) else None


def named(root):
    """The version that each place names, or None."""
    found = [(HEADER + ', its numbers', numbers(read(root, HEADER)))]
    for path, pattern, needed in PLACES:
        if needed or os.path.isfile(os.path.join(root, path)):
            match = re.search(pattern, read(root, path), re.M)
            found.append((path, match and match.group(1)))
    return found


def agree(found):
    versions = {version for _, version in found}
    return len(versions) == 1 and None not in versions


def main(root):
    found = named(root)
    for path, version in found:
        print('version: %s: %s' % (path, version))
    return 0 if agree(found) else 1


if __name__ == '__main__':
    sys.exit(main('.'))
