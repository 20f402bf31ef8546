"""Builds the program of this checkout without its proofs, and keeps it.

    python3 unproved.py PROGRAM [FLAG..]

rt try builds into a folder of its own, runs what it built, and removes it. So the program is told to read a FIFO, where it waits; it is copied to
PROGRAM; and an empty text lets it end. rt try also runs the program in its interpreter before there is a file: that run is let go at once. What
rt try says goes to the standard error where nothing could be copied.
"""

import os
import shutil
import signal
import subprocess
import sys
import tempfile
import time

TOP = os.path.dirname(os.path.dirname(os.path.abspath(__file__)))
CRATE = os.path.join(TOP, 'crates', 'varexj')
SECONDS = '600'
PAUSE = 0.1


def built(folder):
    """The program's file below this folder, or None."""
    for place, _, files in os.walk(folder):
        for path in (os.path.join(place, file) for file in files):
            try:
                if os.access(path, os.X_OK):
                    with open(path, 'rb') as file:
                        if file.read(4) == b'\x7fELF':
                            return path
            except OSError:
                continue
    return None


def is_taken(path, program):
    """Copies a file, which may not be whole yet; whether it is the program."""
    copy = program + '.new'
    try:
        shutil.copy2(path, copy)
        said = subprocess.run([copy, '--version'], capture_output=True)
    except OSError:
        return False
    if said.returncode != 0 or not said.stdout.startswith(b'varexj '):
        return False
    os.replace(copy, program)
    return True


def let_go(fifo):
    """Ends what waits at the FIFO, if anything does."""
    try:
        os.close(os.open(fifo, os.O_WRONLY | os.O_NONBLOCK))
    except OSError:
        pass


def is_kept(program, folder, flags):
    """Whether the program could be built, with these flags, and copied; the folder is empty at first."""
    fifo, log = os.path.join(folder, 'report'), os.path.join(folder, 'log')
    os.mkfifo(fifo)
    words = ['rt', 'try', '--seconds', SECONDS, *flags, '--', 'project', fifo, '-']
    with open(log, 'wb') as file:
        trying = subprocess.Popen(words, cwd=CRATE, env={**os.environ, 'TMPDIR': folder}, stdout=file, stderr=file)
    taken = False
    try:
        while trying.poll() is None:
            path = None if taken else built(folder)
            taken = taken or path is not None and is_taken(path, program)
            if taken or path is None:
                let_go(fifo)
            time.sleep(PAUSE)
    finally:
        trying.terminate()
        trying.wait()
    if not taken:
        with open(log, errors='replace') as file:
            sys.stderr.write(file.read())
    return taken


def main(program, flags):
    # So that rt try ends with this, and the folder is removed.
    for number in (signal.SIGTERM, signal.SIGHUP, signal.SIGINT):
        signal.signal(number, lambda *_: sys.exit(1))
    os.makedirs(os.path.dirname(program), exist_ok=True)
    with tempfile.TemporaryDirectory(prefix='varexj-') as folder:
        return 0 if is_kept(program, folder, flags) else 1


if __name__ == '__main__':
    sys.exit(main(os.path.abspath(sys.argv[1]), sys.argv[2:]))
