"""Calls of the program over the files and the sources beside this file, and what has to come of each.

A row has the words, the status, what is written, and the line on the standard error.
"""

REPORTS_OF_RUNS = [
    ('run a m Main 100 1', 0, 'varexj report 1\noptions 1\noption A\nlimit 100\nrounds 4\nnode 2 0 1 0\nnode 3 0 0 1\nout 2 0\\0a\nout 3 1\\0a\nend 1 return\ndone\n', ''),
    ('run a m Main 100 2', 0, 'varexj report 2\noptions 1\noption A\nlimit 100\nrounds 4\nnode 2 0 1 0\nnode 3 0 0 1\nout 2 0\\0a\nout 3 1\\0a\nend 1 return\nattempts 1 4\ndone\n', ''),
    ('run n e Main 100 1', 0, 'varexj report 1\noptions 0\nlimit 100\nrounds 4\nout 1 2\\0a\nend 1 return\ndone\n', ''),
    ('run n e Main 3 1', 0, 'varexj report 1\noptions 0\nlimit 3\nrounds 3\nout 1 2\\0a\nend 1 unfinished\ndone\n', ''),
    ('run n e Main 100', 0, 'varexj report 2\noptions 0\nlimit 100\nrounds 4\nout 1 2\\0a\nend 1 return\nattempts 1 4\ndone\n', ''),
    ('run i e Main 100 1', 0, 'varexj report 1\noptions 0\nlimit 100\nrounds 1\nend 1 illegal Main.main([Ljava/lang/String;)V@0\ndone\n', ''),
    ('run a r Main 100 1', 0, 'varexj report 1\noptions 1\noption A\nlimit 100\nrounds 4\nnode 2 0 1 0\nnode 3 0 0 1\nout 2 0\\0a\nout 3 1\\0a\nend 1 return\ndone\n', ''),
    ('run a on Main 100 1', 0, 'varexj report 1\noptions 1\noption A\nlimit 100\nrounds 4\nnode 2 0 0 1\nout 2 1\\0a\nend 2 return\ndone\n', ''),
    ('run a two Main 100 1', 0, 'varexj report 1\noptions 2\noption A\noption B\nlimit 100\nrounds 4\nout 1 0\\0a\nend 1 return\ndone\n', ''),
    ('run a a.cnf Main 100 1', 0, 'varexj report 1\noptions 1\noption A\nlimit 100\nrounds 4\nnode 2 0 0 1\nout 2 1\\0a\nend 2 return\ndone\n', ''),
    ('run l e Main 100 1', 0, 'varexj report 1\noptions 0\nlimit 100\nrounds 3\nend 1 return\ndone\n', ''),
    ('run g e Main 100 1', 0, 'varexj report 1\noptions 0\nlimit 100\nrounds 4\nout 1 2\\0a\nend 1 return\ndone\n', ''),
    ('run j m Main 100 1', 0, 'varexj report 1\noptions 1\noption A\nlimit 100\nrounds 13\nnode 2 0 0 1\nnode 3 0 1 0\nout 2 1\\0a\nout 3 2\\0a\nend 1 return\ndone\n', ''),
    ('run j m Main 100 2', 0, 'varexj report 2\noptions 1\noption A\nlimit 100\nrounds 13\nnode 2 0 0 1\nnode 3 0 1 0\nout 2 1\\0a\nout 3 2\\0a\nend 1 return\nattempts 2 9\nattempts 3 10\ndone\n', ''),
    ('run j m Main 9 1', 0, 'varexj report 1\noptions 1\noption A\nlimit 9\nrounds 13\nnode 2 0 0 1\nnode 3 0 1 0\nout 2 1\\0a\nout 3 2\\0a\nend 2 return\nend 3 unfinished\ndone\n', ''),
    ('run k m Main 100 1', 0, 'varexj report 1\noptions 1\noption A\nlimit 100\nrounds 13\nout 1 1\\0a\nend 1 return\ndone\n', ''),
    ('run w m Main 50 1', 0, 'varexj report 1\noptions 1\noption A\nlimit 50\nrounds 51\nnode 2 0 0 1\nnode 3 0 1 0\nout 2 1\\0a\nend 3 return\nend 2 unfinished\ndone\n', ''),
    ('run u only-b Main 100 1', 0, 'varexj report 1\noptions 1\noption B\nlimit 100\nrounds 4\nnode 2 0 1 0\nnode 3 0 0 1\nend 2 return\nend 3 unsupported float - Main.main([Ljava/lang/String;)V@6\ndone\n', ''),
    ('run p xy Main 100 1', 0, 'varexj report 1\noptions 4\noption X0\noption X1\noption Y0\noption Y1\nlimit 100\nrounds 10\nnode 2 3 1 0\nnode 3 2 2 0\nnode 4 3 0 1\nnode 5 2 4 0\nnode 6 1 3 5\nnode 7 2 0 2\nnode 8 2 0 4\nnode 9 1 7 8\nnode 10 0 6 9\nout 10 1\\0a\nend 1 return\ndone\n', ''),
    ('run a b.cnf Main 100 1', 0, 'varexj report 1\noptions 2\noption A\noption B\nlimit 100\nrounds 4\nnode 2 0 1 0\nnode 3 1 0 1\nnode 4 0 0 3\nnode 5 0 1 3\nout 2 0\\0a\nout 4 1\\0a\nend 5 return\ndone\n', ''),
    ('run z m Main 100 1', 0, 'varexj report 1\noptions 1\noption A\nlimit 100\nrounds 9\nnode 2 0 1 0\nnode 3 0 0 1\nend 2 return\nend 3 exit 3\ndone\n', ''),
    ('run z off Main 100 1', 0, 'varexj report 1\noptions 1\noption A\nlimit 100\nrounds 3\nnode 2 0 1 0\nend 2 return\ndone\n', ''),
    ('run z m Main 2 1', 0, 'varexj report 1\noptions 1\noption A\nlimit 2\nrounds 2\nend 1 unfinished\ndone\n', ''),
    # Of 64 options the first is on.
    (
        'run n v64.cnf Main 100 1',
        0,
        'varexj report 1\noptions 64\n'
        + ''.join(f'option v{number}\n' for number in range(1, 65))
        + 'limit 100\nrounds 4\nnode 2 0 0 1\nout 2 2\\0a\nend 2 return\ndone\n',
        '',
    ),
]

# The version is no refusal, but a word of its own.
REFUSED_RUNS_AND_WORDS = [
    ('run n e Main 0 1', 2, '', 'usage\n'),
    ('--version', 0, 'varexj 0.10\n', ''),
    ('--version run', 2, '', 'usage\n'),
    ('-h', 2, '', 'usage\n'),
    ('run b e Main 100 1', 7, '', 'bad class 1\\201.class at 3 reason 3\n'),
    ('run a none Main 100 1', 6, '', 'no configuration\n'),
    ('run a bad Main 100 1', 5, '', 'bad model line 2 reason 4\n'),
    ('run n e.cnf Main 100 1', 5, '', 'bad model line 1 reason 7\n'),
    ('run f e Main 100 1', 8, '', 'twice Main\n'),
    ('run s e Main 100 1', 8, '', 'no super Main\n'),
    ('run x e Main 100 1', 8, '', 'final super Main\n'),
    ('run c e Main 100 1', 8, '', 'cycle P\n'),
    ('run n m Main 100 1', 8, '', 'no option A\n'),
    ('run o e Main 100 1', 8, '', 'no main\n'),
    ('run n v.cnf Main 100 1', 5, '', 'bad model line 1 reason 6\n'),
]

COMMANDS_ON_REPORTS = [
    ('project report -', 0, 'out 0\\0a\nend return\n', ''),
    ('project report A', 0, 'out 1\\0a\nend return\n', ''),
    ('project part -', 11, '', 'not allowed\n'),
    ('project equal-attempts A', 0, 'out 1\\0a\nend return\nattempts 4\n', ''),
    ('project unlike-attempts A', 0, 'out 1\\0a\nend return\nattempts 9\n', ''),
    ('project cut -', 10, '', 'bad report line 6\n'),
    ('interact report', 0, 'varexj interact 1\npiece 1 1 A\npiece 2 1 A\nend 1 0 -\ndone\n', ''),
    ('output report A', 0, '1\n', ''),
    ('output report - out', 0, '0\n', ''),
    ('output report A err', 0, '', ''),
    ('output report B', 11, '', 'not allowed\n'),
    ('output part -', 11, '', 'not allowed\n'),
    ('output cut -', 10, '', 'bad report line 6\n'),
    ('output report', 2, '', 'usage\n'),
    ('output report A in', 2, '', 'usage\n'),
    ('output report A out err', 2, '', 'usage\n'),
    ('count report', 0, 'varexj count 1\nof 2\n2 end return\n1 out 1 2 0\\0a\n1 out 2 2 1\\0a\ndone\n', ''),
    ('count cut', 10, '', 'bad report line 6\n'),
    ('count report 1', 2, '', 'usage\n'),
    ('list report', 0, 'varexj list 1\nof 2\n- return\nA return\ndone\n', ''),
    ('list report 1', 0, 'varexj list 1\nof 2\n- return\ndone\n', ''),
    ('list cut 1', 10, '', 'bad report line 6\n'),
    ('list report 0', 2, '', 'usage\n'),
    ('list report 01', 2, '', 'usage\n'),
    ('list report 1000001', 2, '', 'usage\n'),
    ('picture report ends', 0, 'digraph report {\n1 [label="always", shape=box];\nend1 [label="end return", shape=box];\nend1 -> 1;\n}\n', ''),
    ('picture report 2', 0, 'digraph report {\n3 [label="A"];\n1 [label="always", shape=box];\n3 -> 1;\npiece2 [label="out 2 2 1\\\\0a", shape=box];\npiece2 -> 3;\n}\n', ''),
    ('picture report 3', 11, '', 'not allowed\n'),
    ('picture report 0', 2, '', 'usage\n'),
    ('picture report pieces', 2, '', 'usage\n'),
    ('picture cut ends', 10, '', 'bad report line 6\n'),
    ('interact cut', 10, '', 'bad report line 6\n'),
    ('interact report A', 2, '', 'usage\n'),
    ('picture report', 0, 'digraph report {\n2 [label="A"];\n3 [label="A"];\n1 [label="always", shape=box];\n2 -> 1 [style=dashed];\n3 -> 1;\nend1 [label="end return", shape=box];\nend1 -> 1;\npiece1 [label="out 1 2 0\\\\0a", shape=box];\npiece1 -> 2;\npiece2 [label="out 2 2 1\\\\0a", shape=box];\npiece2 -> 3;\n}\n', ''),
    ('picture cut', 10, '', 'bad report line 6\n'),
    ('cover report', 0, 'varexj cover 1\ntry - 1 1\ntry A - 2\ndone\n', ''),
    ('cover', 2, '', 'usage\n'),
    ('explain report', 0, 'varexj explain 2\nend return\nwhen true\nexample -\nout 1 2 0\\0a\nwhen !A\nexample -\nout 2 2 1\\0a\nwhen A\nexample A\ndone\n', ''),
    ('explain report ends', 0, 'varexj explain 2\nend return\nwhen true\nexample -\ndone\n', ''),
    ('explain report piece', 2, '', 'usage\n'),
    ('explain cut', 10, '', 'bad report line 6\n'),
    ('explain cut ends', 10, '', 'bad report line 6\n'),
    ('page cut', 10, '', 'bad report line 6\n'),
    ('page report A', 2, '', 'usage\n'),
    ('agree report report', 0, 'varexj agree 1\noptions 1\noption A\nagree 1\ndone\n', ''),
    ('agree report part', 0, 'varexj agree 1\noptions 1\noption A\nnode 2 0 0 1\nagree 2\ndone\n', ''),
    ('agree report plain', 14, '', 'unlike\n'),
    ('agree report cut', 10, '', 'bad report line 6\n'),
    ('agree cut absent', 10, '', 'bad report line 6\n'),
    ('agree report', 2, '', 'usage\n'),
]

JOINS_OF_REPORTS = [
    ('join part report', 0, 'varexj report 1\noptions 1\noption A\nlimit 100\nrounds 8\nnode 2 0 0 1\nnode 3 0 1 0\nout 2 1\\0a\nout 3 0\\0a\nend 1 return\ndone\n', ''),
    ('join report part report', 0, 'varexj report 1\noptions 1\noption A\nlimit 100\nrounds 12\nnode 2 0 1 0\nnode 3 0 0 1\nout 2 0\\0a\nout 3 1\\0a\nend 1 return\ndone\n', ''),
    ('join report plain', 14, '', 'unlike\n'),
    ('join many report', 18, '', 'not joinable\n'),
    ('join many plain', 14, '', 'unlike\n'),
    ('join report cut', 10, '', 'bad report line 6\n'),
    ('join cut absent', 10, '', 'bad report line 6\n'),
    ('join report', 2, '', 'usage\n'),
    ('join', 2, '', 'usage\n'),
]

# They run nothing, or one configuration.
COMMANDS_ON_CLASSES = [
    ('verify a m Main', 0, 'verified\n', ''),
    ('verify a none Main', 0, 'verified\n', ''),
    ('verify i e Main', 0, 'refused Main.main([Ljava/lang/String;)V\n', ''),
    ('verify a bad Main', 5, '', 'bad model line 2 reason 4\n'),
    ('verify n m Main', 8, '', 'no option A\n'),
    ('verify c e Main', 8, '', 'cycle P\n'),
    ('verify n e', 2, '', 'usage\n'),
    ('replay a m Main 100 A', 0, 'varexj replay 1\nout 1\\0a\nend return\nattempts 4\nat Main.main([Ljava/lang/String;)V@9 -\ndone\n', ''),
    ('replay a m Main 3 -', 0, 'varexj replay 1\nout 0\\0a\nend unfinished\nattempts 3\nat Main.main([Ljava/lang/String;)V@9 -\ndone\n', ''),
    ('replay a none Main 100 A', 11, '', 'not allowed\n'),
    ('replay absent m Main 100 A,A', 11, '', 'not allowed\n'),
    ('replay a on Main 100 -', 11, '', 'not allowed\n'),
    ('replay b e Main 100 -', 7, '', 'bad class 1\\201.class at 3 reason 3\n'),
    ('replay n m Main 100 A', 8, '', 'no option A\n'),
    ('replay a m Main 0 A', 2, '', 'usage\n'),
    ('replay a m Main 100', 2, '', 'usage\n'),
    ('asm word', 12, '', 'bad source line 1 reason 1\n'),
    ('asm', 2, '', 'usage\n'),
]

TRACES = [
    ('trace t m Main 100 -', 0, 'Exception in thread "main" java.lang.ArithmeticException: / by zero\n\tat Main.part(Unknown Source)\n\tat Main.main(Unknown Source)\n', ''),
    ('trace t m Main 100 A', 0, 'return\n\tat Main.main(Unknown Source)\n', ''),
    ('trace t m Main 3 -', 0, 'unfinished\n\tat Main.part(Unknown Source)\n\tat Main.main(Unknown Source)\n', ''),
    ('trace absent m Main 100 A,A', 11, '', 'not allowed\n'),
    ('trace b e Main 100 -', 7, '', 'bad class 1\\201.class at 3 reason 3\n'),
    ('trace n m Main 100 A', 8, '', 'no option A\n'),
    ('trace t m Main 0 A', 2, '', 'usage\n'),
    ('trace t m Main 100', 2, '', 'usage\n'),
]

# What no configuration has is left out.
CUTS_OF_MODELS = [
    ('cut two B,A', 0, '# part 1 !A & !B\noption A\noption B\nrule !A & !B\n# part 2 !A & B\noption A\noption B\nrule !A & B\n# part 3 A & !B\noption A\noption B\nrule A & !B\n# part 4 A & B\noption A\noption B\nrule A & B\n', ''),
    ('cut two 1', 0, '# part 1 !A\noption A\noption B\nrule !A\n# part 2 A\noption A\noption B\nrule A\n', ''),
    ('cut on A report', 0, '# part 1 A\noption A Main A\nrule A\nrule A\n', ''),
    ('cut m -', 0, '# part 1 true\noption A Main A\nrule true\n', ''),
    ('cut b.cnf A', 0, 'c part 1 !A\nc 1 A Main A\nc 2 B\np cnf 2 2\n-1 2 0\n-1 0\nc part 2 A\nc 1 A Main A\nc 2 B\np cnf 2 2\n-1 2 0\n1 0\n', ''),
    ('cut two 0', 2, '', 'usage\n'),
    ('cut two 17', 2, '', 'usage\n'),
    ('cut two 01', 2, '', 'usage\n'),
    ('cut two', 2, '', 'usage\n'),
    ('cut two A report report', 2, '', 'usage\n'),
    ('cut bad A', 5, '', 'bad model line 2 reason 4\n'),
    ('cut none A absent', 6, '', 'no configuration\n'),
    ('cut two C cut', 10, '', 'bad report line 6\n'),
    ('cut two C report', 14, '', 'unlike\n'),
    ('cut two C', 11, '', 'not allowed\n'),
    ('cut two A,A', 11, '', 'not allowed\n'),
    ('cut two 3', 11, '', 'not allowed\n'),
    ('cut e 1', 11, '', 'not allowed\n'),
]

CHECKS_OF_REPORTS = [
    ('check report', 0, 'varexj check 1\nof 2\nfailing 0\ndone\n', ''),
    ('check report returns', 0, 'varexj check 1\nof 2\nfailing 0\ndone\n', ''),
    ('check report exits', 15, 'varexj check 1\nof 2\nfailing 1\n1 A 2 return when A\ndone\n', 'failing\n'),
    ('check report formless', 17, '', 'bad expected line 1 reason 1\n'),
    ('check report endless', 17, '', 'bad expected line 2 reason 2\n'),
    ('check report ruleless', 17, '', 'bad expected line 1 reason 4\n'),
    ('check report strange', 17, '', 'bad expected line 1 reason 5\n'),
    ('check cut returns', 10, '', 'bad report line 6\n'),
    ('check e returns', 10, '', 'bad report line 1\n'),
    ('check report e', 0, 'varexj check 1\nof 2\nfailing 0\ndone\n', ''),
    ('check', 2, '', 'usage\n'),
    ('check report returns exits', 2, '', 'usage\n'),
]

COMPARISONS_OF_REPORTS = [
    ('compare report report', 0, 'varexj compare 1\nof 2\ndiffer 0\ndone\n', ''),
    ('compare report part', 16, 'varexj compare 1\nof 2\ndiffer 1\nwhen !A\nway return\nother -\ncount 1\nwhen !A\nexample -\ndone\n', 'differing\n'),
    ('compare part report', 16, 'varexj compare 1\nof 2\ndiffer 1\nwhen !A\nway -\nother return\ncount 1\nwhen !A\nexample -\ndone\n', 'differing\n'),
    ('compare report plain', 16, 'varexj compare 1\nof 2\ndiffer 2\nwhen true\nway return\nother return\ncount 2\nwhen true\nexample -\nline out 1\none 0\\0a\nother 2\\0a\ndone\n', 'differing\n'),
    ('compare plain report', 16, 'varexj compare 1\nof 2\ndiffer 2\nwhen true\nway return\nother return\ncount 2\nwhen true\nexample -\nline out 1\none 2\\0a\nother 0\\0a\ndone\n', 'differing\n'),
    ('compare report cut', 10, '', 'bad report line 6\n'),
    ('compare cut absent', 10, '', 'bad report line 6\n'),
    ('compare report e', 10, '', 'bad report line 1\n'),
    ('compare report', 2, '', 'usage\n'),
]

# Behind a text that tells why `run` would refuse.
DIAGNOSES = [
    ('doctor a bad Main', 5, 'varexj doctor 1\nline 2: rule A &\nreason 4: the rule is no expression of ->, |, &, !, brackets and names, or nests deeper than 256\nstatus 5 bad model\n', 'bad model line 2 reason 4\n'),
    ('doctor absent bad Main', 5, 'varexj doctor 1\nline 2: rule A &\nreason 4: the rule is no expression of ->, |, &, !, brackets and names, or nests deeper than 256\nstatus 5 bad model\n', 'bad model line 2 reason 4\n'),
    ('doctor a none Main', 6, 'varexj doctor 1\noptions 1, rules 1, allowed 0\noption A field Main.A never\nno configuration meets all rules\nstatus 6 no configuration\n', 'no configuration\n'),
    ('doctor b e Main', 7, 'varexj doctor 1\noptions 0, rules 0, allowed 1\nclass file 1\\201.class at byte 3\nreason 3: the file ends too early\nstatus 7 bad class\n', 'bad class 1\\201.class at 3 reason 3\n'),
    ('doctor c e Main', 8, 'varexj doctor 1\noptions 0, rules 0, allowed 1\nclasses 3\nversion 51 3\nclass P is its own ancestor\nsuperclass Q\nstatus 8 bad link\n', 'cycle P\n'),
    ('doctor n m Main', 8, 'varexj doctor 1\noptions 1, rules 0, allowed 2\noption A field Main.A\nclasses 1\nversion 51 1\noption A has a field that is no static one of type boolean\nfield A is not there\nclass Main has these static fields of type boolean\nstatus 8 bad link\n', 'no option A\n'),
    ('doctor a m', 2, '', 'usage\n'),
    ('doctor a m Main 100', 2, '', 'usage\n'),
]

ABSENT_FILES = [
    ('doctor absent m Main', 3, '', 'read fault absent\n'),
    ('doctor absent absent Main', 3, '', 'read fault absent\n'),
    ('count absent', 3, '', 'read fault absent\n'),
    ('page absent', 3, '', 'read fault absent\n'),
    ('cut absent A', 3, '', 'read fault absent\n'),
    ('cut two C absent', 3, '', 'read fault absent\n'),
    ('check absent returns', 3, '', 'read fault absent\n'),
    ('check report absent', 3, '', 'read fault absent\n'),
    ('agree absent cut', 3, '', 'read fault absent\n'),
    ('agree report absent', 3, '', 'read fault absent\n'),
    ('compare report absent', 3, '', 'read fault absent\n'),
    ('run f absent Main 100 1', 3, '', 'read fault absent\n'),
]

CALLS = {
    'reports of runs': REPORTS_OF_RUNS,
    'refused runs and words': REFUSED_RUNS_AND_WORDS,
    'commands on reports': COMMANDS_ON_REPORTS,
    'joins of reports': JOINS_OF_REPORTS,
    'commands on classes': COMMANDS_ON_CLASSES,
    'traces': TRACES,
    'cuts of models': CUTS_OF_MODELS,
    'checks of reports': CHECKS_OF_REPORTS,
    'comparisons of reports': COMPARISONS_OF_REPORTS,
    'diagnoses': DIAGNOSES,
    'absent files': ABSENT_FILES,
}

# Words of each command, and the files and folders that it reads, in their order; `again` is the report once more.
READS = [
    ('run a m Main 100 1', ['m', 'a', 'a/Main.class']),
    ('run f e Main 100 1', ['e', 'f', 'f/1.class', 'f/2.class', 'f/3.class', 'f/4.class', 'f/5.class']),
    ('doctor a m Main', ['m', 'a', 'a/Main.class']),
    ('verify a m Main', ['m', 'a', 'a/Main.class']),
    ('replay a m Main 100 A', ['m', 'a', 'a/Main.class']),
    ('trace t m Main 100 -', ['m', 't', 't/Main.class']),
    ('asm source', ['source']),
    ('project report A', ['report']),
    ('interact report', ['report']),
    ('picture report', ['report']),
    ('cover report', ['report']),
    ('explain report', ['report']),
    ('output report A', ['report']),
    ('count report', ['report']),
    ('page report', ['report']),
    ('list report 1', ['report']),
    ('agree report part', ['report', 'part']),
    ('agree report again', ['report', 'again']),
    ('compare report again', ['report', 'again']),
    ('join report part again', ['report', 'part', 'again']),
    ('load 1 2', []),
    ('--version', []),
]

# Words of each command, the writing of which fails at each byte.
WRITES = [
    'run n e Main 100 1',
    'doctor a m Main',
    'verify a m Main',
    'replay a m Main 3 -',
    'trace t m Main 100 A',
    'asm source',
    'project report A',
    'interact report',
    'picture report',
    'cover report',
    'explain report',
    'output report A',
    'count report',
    'list report',
    'agree report part',
    'compare report again',
    'load 1 1',
    '--version',
]

# How many bytes of the output, and of the line on the standard error, are taken: words, these two numbers, and what is written.
PARTS = [
    ('run n e Main 100 1', 20, 12, 'varexj report 1\nopti', 'write fault\n'),
    ('run n e Main 100 1', 20, 10, 'varexj report 1\nopti', 'write faul'),
    ('page report', 10, 12, '<!doctype ', 'write fault\n'),
    ('agree report part', 10, 12, 'varexj agr', 'write fault\n'),
]

# Words that are refused, and their statuses, which stay where the line is lost.
REFUSED = [
    ('run', 2),
    ('watch', 2),
    ('watch a absent Main 100 1', 3),
    ('run a absent Main 100 1', 3),
    ('run a bad Main 100 1', 5),
    ('run a none Main 100 1', 6),
    ('run b e Main 100 1', 7),
    ('run c e Main 100 1', 8),
    ('verify c e Main', 8),
    ('interact cut', 10),
    ('project part -', 11),
    ('asm word', 12),
    ('agree report plain', 14),
]
