"""Calls all scripts beside this one, one after the other, and tells how long each took.

    python3 tests/hostile/all.py VAREXJ
"""

import os
import subprocess
import sys
import time

import trying

SCRIPTS = ('system_calls', 'allocations', 'streams', 'links', 'damage', 'depth', 'dear')


def main(varexj):
    ends = {}
    for name in SCRIPTS:
        began = time.perf_counter()
        print(f'---- {name}.py', flush=True)
        status = subprocess.run([sys.executable, os.path.join(trying.HERE, name + '.py'), varexj]).returncode
        ends[name] = (status, time.perf_counter() - began)
    print('---- all')
    for name, (status, seconds) in ends.items():
        print(f'{name:<14} {"passed" if status == 0 else f"ended with {status}":<14} {seconds:7.1f} s')
    print(f'{sum(seconds for _status, seconds in ends.values()):.1f} seconds')
    return 0 if all(status == 0 for status, _seconds in ends.values()) else 1


if __name__ == '__main__':
    sys.exit(main(trying.program()))
