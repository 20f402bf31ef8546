"""Names and texts that fall together in a hash table that begins with no key.

A table of indexmap looks for a key in groups, from one that some low bits of its hash name, at the entries whose tag, the top byte, is that of
the key. So keys of one tag whose groups are among the first eighth are looked for one after the other. To find one takes two thousand tries.
"""

import functools
import os
import subprocess
import tempfile

LENGTH = 7
GROUP = 9
TAG = 0x41
MASK_OF_TAG = 0xff000000


@functools.cache
def program():
    """The program that finds them, made by gcc."""
    folder = tempfile.mkdtemp()
    made = os.path.join(folder, 'colliding')
    source = os.path.join(os.path.dirname(os.path.abspath(__file__)), 'colliding.c')
    subprocess.run(['gcc', '-O2', '-o', made, source], check=True)
    return made


def mask_for(count):
    """The tag and the three top bits of a group's number, in a table of so many keys."""
    bits = 3
    while GROUP << bits < count:
        bits += 1
    return [hex(MASK_OF_TAG | 7 << bits - 3), hex(TAG << 24)]


def found(words):
    return subprocess.run([program(), *words], check=True, capture_output=True, text=True).stdout.splitlines()


@functools.cache
def names(count, size=1, before=(), behind=()):
    """So many names, each of seven units of so many bytes, with numbers and their sizes that are hashed before their length and behind them."""
    writes = [f'{value}/{width}' for value, width in (*before, (LENGTH, 8))]
    rest = [f'{value}/{width}' for value, width in behind]
    return found(['names', str(count), str(LENGTH), str(size), *mask_for(count), *writes, '-', *rest])


@functools.cache
def texts(count, length):
    """Texts of so many units together, each of at most so many, whose steps fall together where they are the first ones that are put."""
    return [''.join(chr(int(unit)) for unit in line.split()) for line in found(['steps', str(count), str(length), *mask_for(count)])]
