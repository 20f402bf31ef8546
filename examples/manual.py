"""Writes a manual page and completions of varexj, made of its help text.

    python3 manual.py VAREXJ PREFIX

Writes PREFIX/share/man/man1/varexj.1, PREFIX/share/bash-completion/completions/varexj and PREFIX/share/zsh/site-functions/_varexj.
"""

import os
import re
import subprocess
import sys


def asked(varexj, word):
    return subprocess.run([varexj, word], check=True, capture_output=True, text=True).stdout


def commands(help_text):
    """The words of each command, and what it is for."""
    found = []
    for line in help_text.split('\n'):
        begins = re.match(r'  varexj (\S.*?)  +(\S.*)$', line)
        if begins:
            found.append([begins[1], begins[2]])
        elif found and re.match(r' {20,}\S', line):
            found[-1][1] += ' ' + line.strip()
        elif found and not line.startswith('  '):
            break
    return found


def shown(text):
    """Text in the form of a manual page: `-` and `\\` stand for themselves."""
    return text.replace('\\', '\\e').replace('-', '\\-')


def manual(help_text, version):
    first, _, rest = help_text.partition('\n\n')
    listed = commands(help_text)
    notes = rest.partition('\n\n')[2]
    lines = ['.TH VAREXJ 1 "" "%s" ""' % version, '.SH NAME', 'varexj \\- ' + shown(first.removeprefix('varexj ').rstrip('.')), '.SH SYNOPSIS']
    lines += ['.nf', *(shown('varexj ' + words) for words, _ in listed), '.fi', '.SH COMMANDS']
    for words, use in listed:
        lines += ['.TP', '.B ' + shown(words), shown(use)]
    lines += ['.SH WORDS AND EXIT CODES', '.nf', shown(notes.rstrip('\n')), '.fi']
    return '\n'.join(lines) + '\n'


def first_words(help_text):
    words = {}
    for spelled, use in commands(help_text):
        for part in spelled.replace('varexj ', '').split(', '):
            words.setdefault(part.split()[0], use)
    return words


def bash(words):
    return '''# Completion of varexj for bash: a command, and then files.
_varexj() {
    if [ "$COMP_CWORD" -eq 1 ]; then
        mapfile -t COMPREPLY < <(compgen -W "%s" -- "${COMP_WORDS[1]}")
    else
        mapfile -t COMPREPLY < <(compgen -f -- "${COMP_WORDS[COMP_CWORD]}")
    fi
}
complete -o filenames -F _varexj varexj
''' % ' '.join(words)


def zsh(words):
    rows = '\n'.join("        '%s:%s'" % (word, use.replace("'", "").replace(':', '')) for word, use in words.items())
    return '''#compdef varexj
_varexj() {
    local -a commands=(
%s
    )
    if ((CURRENT == 2)); then
        _describe command commands
    else
        _files
    fi
}
_varexj "$@"
''' % rows


def write(path, text):
    os.makedirs(os.path.dirname(path), exist_ok=True)
    with open(path, 'w') as file:
        file.write(text)


def main():
    if len(sys.argv) != 3:
        sys.exit(__doc__)
    varexj, prefix = sys.argv[1:]
    help_text, version = asked(varexj, '--help'), asked(varexj, '--version').strip()
    words = first_words(help_text)
    write(os.path.join(prefix, 'share/man/man1/varexj.1'), manual(help_text, version))
    write(os.path.join(prefix, 'share/bash-completion/completions/varexj'), bash(words))
    write(os.path.join(prefix, 'share/zsh/site-functions/_varexj'), zsh(words))


main()
