"""Compiles the classes here anew, and asks the Java machine of this computer for the stack traces of their programs and of those in ../programs.

    python3 ask_jvm.py

Writes the folder classes, the folder stacks, with a file for each program of ../programs and of the examples that has a configuration which ends by an exception, and the folder
own, with a file for each class here that has a main. Wants javac and java of a release that still compiles for Java 8.
"""

import glob
import os
import shutil
import subprocess
import sys
import tempfile

HERE = os.path.dirname(os.path.abspath(__file__))
sys.path.insert(0, os.path.join(HERE, '..', 'programs'))

import programs
from common import written

# the messages that later releases write into exceptions which the machine raises
FLAGS = ['-Xmx1g', '-XX:-ShowCodeDetailsInExceptionMessages']


def emptied(name):
    place = os.path.join(HERE, name)
    shutil.rmtree(place, ignore_errors=True)
    os.mkdir(place)
    return place


def stacks(program, folder):
    model = program.model()
    settings = programs.put_settings(model.options, model.configurations(), folder)
    words = ['java', *FLAGS, os.path.join(HERE, 'Stacks.java'), program.place('classes'), program.main(), *settings]
    return subprocess.run(words, check=True, capture_output=True).stdout


def main():
    classes = emptied('classes')
    sources = sorted(glob.glob(os.path.join(HERE, 'src', '*.java')))
    subprocess.run(['javac', '--release', '8', '-g:source,lines', '-Xlint:-options', '-d', classes, *sources], check=True)
    own = emptied('own')
    for source in sources:
        name = os.path.basename(source).removesuffix('.java')
        with open(source) as file:
            if 'void main(' not in file.read():
                continue
        said = subprocess.run(['java', *FLAGS, '-Dfile.encoding=UTF-8', '-Dsun.stderr.encoding=UTF-8', '-cp', classes, name], capture_output=True)
        written(os.path.join(own, name), said.stderr)
    all_of_them = emptied('stacks')
    for program in programs.programs():
        with tempfile.TemporaryDirectory() as folder:
            text = stacks(program, folder)
        if text:
            written(os.path.join(all_of_them, program.name), text)
        print(f'{program.name}: {text.count(b"config ")} configurations')


if __name__ == '__main__':
    main()
