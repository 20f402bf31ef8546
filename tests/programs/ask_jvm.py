"""Compiles the programs anew and asks the Java machine of this computer what they do in each configuration.

    python3 ask_jvm.py [NAME..]

Writes the folders classes, the files expected and, where a configuration ends by an exception, the files traces. Wants javac and java of a release that still compiles for Java 8.
"""

import os
import shutil
import subprocess
import sys
import tempfile

import programs


def compiled(program):
    classes = program.place('classes')
    shutil.rmtree(classes, ignore_errors=True)
    files = [path for _, path in sorted(program.sources().items())]
    subprocess.run(['javac', '--release', '8', '-g:source,lines', '-Xlint:-options', '-d', classes] + files, check=True)
    return classes


def expected(program, folder):
    model, traces = program.model(), os.path.join(folder, 'traces')
    words = ['java', os.path.join(programs.HERE, 'Ask.java'), compiled(program), program.main(), *programs.put_settings(model.options, model.configurations(), folder), traces]
    said = subprocess.run(words, check=True, capture_output=True).stdout
    with open(traces, 'rb') as file:
        return {'expected': said, 'traces': file.read()}


def write(program, texts):
    for name, text in texts.items():
        place = program.place(name)
        if text:
            with open(place, 'wb') as file:
                file.write(text)
        elif os.path.exists(place):
            os.remove(place)


def main(names):
    for program in programs.programs():
        if names and program.name not in names:
            continue
        with tempfile.TemporaryDirectory() as folder:
            texts = expected(program, folder)
        write(program, texts)
        print(f'{program.name}: {texts["expected"].count(b"config ")} configurations')


if __name__ == '__main__':
    main(sys.argv[1:])
