"""cited.py FILE..: every citation in these Markdown files is there, and every theorem of the crates promises and nights is cited.

A citation is whatever stands between backquotes. It is a path below crates/ or, failing that, below the repository,
and may name something in that file after a colon:
  words/specs/Parts.antt:part       a definition, theorem or record of a specification or proof file
  words/src/lib.rt:word_at          a function, constant, struct, enum or trait of a source file
  interface/src/answers.rt:Tells for Ran   that trait's impl for that type
  cases/stdout:length 5             a case, by its label
  words/must-fail/put_at_the_wrong_bit.edit  a file
  words/must-fail/apart_2.edit:power_twice   one of the edits of a file that holds several
"""
import os
import re
import sys


def declares(path, name, text):
    """Whether the file's text declares the name, by the kind of file."""
    quoted = re.escape(name)
    if path.endswith('.antt'):
        pattern = r'^\s*((unfoldable|abbrev|pub) )*(%s( \{[^}]*\})? :|(record|data) %s( |$))' % (quoted, quoted)
    elif path.endswith('.rt'):
        if ' for ' in name:
            pattern = r'^impl %s \{' % quoted
        else:
            pattern = r'^\s*(pub )?((extern "C" )?fn|const|struct|enum|trait) %s\b' % quoted
    elif path.endswith('.edit'):
        pattern = r'^# %s$' % quoted
    else:
        pattern = r'^%s: ' % quoted
    return re.search(pattern, text, re.M) is not None


def missing(root, document):
    """The citations of a document that are not there, with the line of each."""
    found = []
    for number, line in enumerate(document.split('\n'), 1):
        for citation in re.findall(r'`([^`]*)`', line):
            path, _, name = citation.partition(':')
            places = [os.path.join(root, 'crates', path), os.path.join(root, path)]
            file = next((place for place in places if os.path.isfile(place)), None)
            if file is None:
                found.append((number, citation, 'no such file'))
                continue
            with open(file, encoding='utf-8') as opened:
                text = opened.read()
            if name and not declares(path, name, text):
                found.append((number, citation, 'the file declares no such name'))
    return found


def theorems(text):
    """The public theorems of a proof file: what it declares so and defines, which a record's fields are not."""
    names = re.findall(r'^ *pub (\S+)(?: \{[^}]*\})? :', text, re.M)
    return [name for name in names if re.search(r'^ *%s( [^:]*)? =' % re.escape(name), text, re.M)]


def uncited(root, folder, documents):
    """The theorems of the proof files of a folder that no document cites."""
    found = []
    for file in sorted(os.listdir(os.path.join(root, 'crates', folder))):
        if not file.endswith('.antt'):
            continue
        with open(os.path.join(root, 'crates', folder, file), encoding='utf-8') as opened:
            names = theorems(opened.read())
        found += ['%s/%s:%s' % (folder, file, name) for name in names if '`%s/%s:%s`' % (folder, file, name) not in documents]
    return found


def main(files):
    wrong = 0
    count = 0
    documents = ''
    for file in files:
        with open(file, encoding='utf-8') as opened:
            document = opened.read()
        documents += document
        count += len(re.findall(r'`[^`]*`', document))
        for number, citation, why in missing('.', document):
            print('%s:%d: %s: %s' % (file, number, citation, why))
            wrong += 1
    for folder in ('promises/proofs', 'nights/proofs'):
        for theorem in uncited('.', folder, documents):
            print('%s: cited nowhere' % theorem)
            wrong += 1
    if count == 0:
        print('no citation at all')
        return 1
    print('cited: %d citations, %d missing or left out' % (count, wrong))
    return 1 if wrong else 0


if __name__ == '__main__':
    sys.exit(main(sys.argv[1:]))
