#!/usr/bin/env python3
"""Writes the commands of the documents as tests, so that the gate runs them.

    docs/tutorial-tests.py [--check]

Each command of README.md and docs/USERS.md that is `lincs` alone, with its output to the screen or to a file, becomes a step
of crates/worked_tutorial. Its files are those of the document's folder and those that earlier steps wrote; a command that
reads a file of another program is left out. With --check the tests are only compared, and a difference is status 1.
"""
import importlib.util
import os
import re
import sys

ROOT = os.path.dirname(os.path.dirname(os.path.abspath(__file__)))
CRATE = os.path.join(ROOT, 'crates', 'worked_tutorial', 'src')
DOCUMENTS = [('readme', 'README.md'), ('users', 'docs/USERS.md')]
COMMAND = re.compile(r'lincs (?P<words>[^|;&$<>]+?)(?: > (?P<target>[\w.-]+))?(?:; cat (?P<shown>[\w.-]+))?$')
FILE = re.compile(r'[\w-]+\.(?:yml|csv|txt)$')

spec = importlib.util.spec_from_file_location('check_tutorial', os.path.join(ROOT, 'docs', 'check-tutorial.py'))
documents = importlib.util.module_from_spec(spec)
spec.loader.exec_module(documents)


def literal(text):
    return '"' + text.replace('\\', '\\\\').replace('"', '\\"') + '"'


def steps_of(text, known):
    """The steps of a document: command line, file that gets the output, what is shown."""
    steps = []
    for command, lines in documents.parts_of(text):
        match = COMMAND.match(command.strip()) if command else None
        if not match:
            continue
        words, target = match['words'].strip(), match['target'] or ''
        if any(FILE.match(word) and word not in known for word in words.split()):
            continue
        if match['shown'] and match['shown'] != target:
            continue
        shown = ''.join(line + '\n' for line in lines)
        if target:
            known.add(target)
        steps.append((words, target, 'shown' if match['shown'] else '', shown))
    return steps


def module(name, path):
    with open(os.path.join(ROOT, path)) as file:
        text = file.read()
    folder = re.search(r'<!-- folder: (\S+) -->', text)[1]
    files = []
    for each in sorted(os.listdir(os.path.join(ROOT, folder))):
        if FILE.match(each):
            with open(os.path.join(ROOT, folder, each)) as file:
                files.append((each, file.read()))
    steps = steps_of(text, {each for each, _ in files})
    lines = [f'//! The commands of {path}, as docs/tutorial-tests.py writes them.', 'use crate::steps::{Step, follow};',
             'use std::test::Fail;', '', f'const FILES: [(&str, &str); {len(files)}] = [']
    for each, text in files:
        lines += ['    (', f'        {literal(each)},', f'        {literal(text)},', '    ),']
    lines += ['];', '', f'const STEPS: [Step<\'_>; {len(steps)}] = [']
    for words, target, shown, output in steps:
        screen = 'true' if shown or not target else 'false'
        lines += ['    Step {', f'        line: {literal(words)},', f'        target: {literal(target)},',
                  f'        screen: {screen},', f'        shown: {literal(output)},', '    },']
    lines += ['];', '', '#[test]', f'fn the_commands_of_{name}_write_what_it_shows(rt: HostRuntime) -> Result<(), Fail> {{',
              '    follow(&rt, rt.alloc(), &FILES, &STEPS)', '}', '']
    return '\n'.join(lines)


def main():
    differ = 0
    for name, path in DOCUMENTS:
        target = os.path.join(CRATE, name + '.rt')
        text = module(name, path)
        old = open(target).read() if os.path.exists(target) else ''
        if '--check' in sys.argv:
            differ += old != text
        elif old != text:
            with open(target, 'w') as file:
                file.write(text)
    if differ:
        print(f'{differ} of {len(DOCUMENTS)} documents differ from their tests', file=sys.stderr)
    sys.exit(1 if differ else 0)


main()
