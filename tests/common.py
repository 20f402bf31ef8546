"""What scripts in several folders of the tests share: how a program is called, what a call took, and how its classes are assembled."""

import os
import resource
import subprocess
import time
from typing import NamedTuple, Optional


class Ended(NamedTuple):
    """How a call ended; its status is None where it was stopped after the time that it had."""

    status: Optional[int]
    out: bytes
    err: bytes
    seconds: float

    def told(self):
        """A line for a reader: the status and the first bytes of both streams."""
        return f'status {self.status}, out {shown(self.out)}, err {shown(self.err)}'

    def is_as(self, other):
        return (self.status, self.out, self.err) == (other.status, other.out, other.err)


def shown(data):
    return repr(data[:80]) + (f' of {len(data)} bytes' if len(data) > 80 else '')


def called(words, folder=None, seconds=None, environment=None, **more):
    """Calls a program, in a folder and for so many seconds at most where they are said. What it reads is empty, unless told otherwise."""
    more = {'stdin': subprocess.DEVNULL, 'stdout': subprocess.PIPE, 'stderr': subprocess.PIPE, **more}
    began = time.perf_counter()
    child = subprocess.Popen(words, cwd=folder, env={**os.environ, **(environment or {})}, **more)
    try:
        out, err = child.communicate(timeout=seconds)
        status = child.returncode
    except subprocess.TimeoutExpired:
        child.kill()
        out, err = child.communicate()
        status = None
    return Ended(status, out or b'', err or b'', time.perf_counter() - began)


def processor_seconds():
    """Those of all children that have ended."""
    used = resource.getrusage(resource.RUSAGE_CHILDREN)
    return used.ru_utime + used.ru_stime


def written(path, data):
    """The path of a file, once it is written there as text or as bytes."""
    with open(path, 'w' if isinstance(data, str) else 'wb') as file:
        file.write(data)
    return path


def assembled(varexj, source, path):
    """The path of a class file, once the source is assembled there."""
    ended = called([varexj, 'asm', source])
    assert ended.status == 0, f'{source}: {ended.told()}'
    return written(path, ended.out)
