"""What the scripts beside this file know of the programs here: a program as in ../programs, whose classes want the class library beside them."""

import glob
import hashlib
import os
import shutil
import subprocess
import sys

HERE = os.path.dirname(os.path.abspath(__file__))
TOP = os.path.dirname(os.path.dirname(HERE))
WITH = os.path.join(TOP, 'library', 'with')
sys.path.insert(0, os.path.join(HERE, '..', 'programs'))

import programs


class RealProgram(programs.Program):
    """A program whose folder `classes` is taken with what it comes to of the library, once that is there.

    One that `prepare` made has a file `main`, which names the class whose main runs, and its classes are whole. `prepare/tests/check_real.py` makes it.
    """

    def __init__(self, folder):
        super().__init__(folder)
        self.whole = None

    def place(self, *parts):
        return self.whole if self.whole and parts == ('classes',) else super().place(*parts)

    def is_prepared(self):
        return os.path.exists(self.place('main'))

    def main(self):
        if not self.is_prepared():
            return super().main()
        with open(self.place('main')) as file:
            return file.read().strip()

    def add_library(self, room):
        """Copies its classes and those of the library into a new folder, which is its folder of classes from now on."""
        if self.is_prepared():
            return
        whole = os.path.join(room, self.name)
        shutil.copytree(self.place('classes'), whole)
        subprocess.run([sys.executable, WITH, whole], check=True, stdout=subprocess.DEVNULL)
        self.whole = whole

    def sum(self):
        """The checksum of its sources, its model and its class files, with their names."""
        all_files = hashlib.sha256()
        paths = [path for path in glob.glob(self.place('src', '**'), recursive=True) if os.path.isfile(path)]
        paths += [self.place('words')] if self.is_prepared() else []
        paths += glob.glob(self.place('classes', '**', '*.class'), recursive=True) + [self.model_place()]
        for path in sorted(paths):
            with open(path, 'rb') as file:
                all_files.update(f'{os.path.relpath(path, self.folder)}\0{hashlib.sha256(file.read()).hexdigest()}\n'.encode())
        return all_files.hexdigest()


def real_programs():
    found = sorted(glob.glob('tests/real/*/src', root_dir=TOP)) + sorted(glob.glob('examples/*/main', root_dir=TOP))
    return [RealProgram(os.path.dirname(path)) for path in found]
