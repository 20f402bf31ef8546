"""Compiles the programs beside this file anew and asks the Java machine of this computer, with its own class library, what they do in each configuration.

    python3 ask_real.py [NAME..]

Writes the folders classes and the files expected and sum. Wants javac and java of a release that still compiles for Java 8.
"""

import sys
import tempfile

import real
import ask_jvm


def main(names):
    for program in real.real_programs():
        if program.is_prepared() or names and program.name not in names:
            continue
        with tempfile.TemporaryDirectory() as folder:
            texts = {'expected': ask_jvm.expected(program, folder)['expected']}
        texts['sum'] = f'{program.sum()}\n'.encode()
        ask_jvm.write(program, texts)
        print(f'{program.name}: {texts["expected"].count(b"config ")} configurations')


main(sys.argv[1:])
