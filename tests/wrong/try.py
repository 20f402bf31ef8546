"""Tries wrong bodies that the gate leaves out.

    python3 try.py CRATE..      those of these crates
    python3 try.py --all        those of every crate
    python3 try.py --look       tries none; whether the text that each replaces stands once in its file, as the gate asks

A wrong body is a file under `must-fail/` of a crate: an edit that the check of the crate has to refuse. Each try costs about a whole check of its
crate. So the gate tries those that end in `.edit`, which stand in crates whose check is cheap, and this script those that end in `.md`. It makes a
copy of the checkout in which they are edits, and has `rt must-fail` try them there; a first try in a crate proves it, and what is below it.
The status is 0 only where each was refused.
"""

import glob
import os
import shutil
import subprocess
import sys
import tempfile

TOP = os.path.dirname(os.path.dirname(os.path.dirname(os.path.abspath(__file__))))


def laid_aside(crate):
    """The wrong bodies of a crate that are laid aside."""
    return sorted(glob.glob(os.path.join(TOP, 'crates', crate, 'must-fail', '*.md')))


def all_crates():
    return sorted({path.split(os.sep)[-3] for path in laid_aside('*')})


def copy_of_checkout(folder):
    """Copies what is under version control or new, not what was built."""
    listed = subprocess.run(['git', 'ls-files', '-z', '--cached', '--others', '--exclude-standard'], cwd=TOP, check=True,
                            capture_output=True).stdout
    for path in listed.decode().split('\0'):
        source = os.path.join(TOP, path)
        if path and os.path.isfile(source):
            target = os.path.join(folder, path)
            os.makedirs(os.path.dirname(target), exist_ok=True)
            shutil.copyfile(source, target)


def read(path):
    with open(path, encoding='utf-8') as file:
        return file.read()


def why_it_fits_not(path):
    """Why a wrong body can't be put into its crate; None where it can."""
    texts, file, old = {}, None, None
    for line in read(path).splitlines():
        word, _, rest = line.partition(': ')
        if word == 'file':
            file = os.path.join(os.path.dirname(os.path.dirname(path)), rest)
            if not os.path.isfile(file):
                return 'there is no ' + rest
            texts.setdefault(file, read(file))
        elif word == 'old':
            old = rest
            if texts[file].count(old) != 1:
                return 'the old text stands %d times' % texts[file].count(old)
        elif word == 'new':
            texts[file] = texts[file].replace(old, rest)
    return None if old is not None else 'it replaces nothing'


def look():
    paths = laid_aside('*')
    faults = [(path, why) for path, why in ((path, why_it_fits_not(path)) for path in paths) if why]
    for path, why in faults:
        print('%s: %s' % (os.path.relpath(path, TOP), why))
    print('%d wrong bodies laid aside, %d that fit no more' % (len(paths), len(faults)))
    return 1 if faults else 0


def main():
    crates = sys.argv[1:]
    if not crates:
        sys.exit(__doc__)
    if crates == ['--look']:
        return look()
    if crates == ['--all']:
        crates = all_crates()
    lacking = [crate for crate in crates if not laid_aside(crate)]
    if lacking:
        sys.exit('nothing is laid aside in ' + ' '.join(lacking))
    with tempfile.TemporaryDirectory() as folder:
        copy_of_checkout(folder)
        for crate in crates:
            for path in laid_aside(crate):
                copied = os.path.join(folder, os.path.relpath(path, TOP))
                os.rename(copied, copied[:-len('.md')] + '.edit')
        return subprocess.run(['rt', 'must-fail', *crates], cwd=folder).returncode


if __name__ == '__main__':
    sys.exit(main())
