#!/usr/bin/env python3
"""Runs the commands of the documents and compares what they write.

    docs/check-tutorial.py [--fill] PROGRAM [DOCUMENT ..]

PROGRAM is the built program. Without documents, README.md and docs/USERS.md are run. The commands are the lines that
begin with '$ ' in blocks of the kind `console`, with the lines that begin with '> ' right below. The lines after that, up
to the next command or the end of the block, are what it must write, output and error output together. A line '...' matches any lines. `echo $?` writes the status of the
command before it.

The commands of a document run in one new folder, in their order. It begins as a copy of the folder that a comment
`<!-- folder: NAME -->` of the document names, so a later command finds the files that an earlier one wrote. `lincs` is
PROGRAM there. A command that needs a program that this machine does not have is skipped.

--fill writes what the commands wrote into the documents, except below a command whose lines have a '...'.
"""
import os
import re
import shutil
import subprocess
import sys
import tempfile

ROOT = os.path.dirname(os.path.dirname(os.path.abspath(__file__)))
SHELL_WORDS = {'for', 'do', 'done', 'while', 'if', 'then', 'else', 'fi', 'echo', 'cd', 'true', 'false', '!', '{', '}'}


def missing_programs(command):
    """The programs that the command calls and this machine does not have."""
    command = re.sub(r"'[^']*'|\"[^\"]*\"", 'word', command)
    command = re.sub(r'\$\([^()]*\)|\$\{[^}]*\}', 'word', command)
    missing = []
    for part in re.split(r'[|;&]+', command):
        words = part.split()
        while words and (words[0] in ('do', 'then', 'else', '!', 'if', 'while') or '=' in words[0]):
            words = words[1:]
        if not words or words[0] in SHELL_WORDS or words[0] == 'lincs':
            continue
        if not shutil.which(words[0]):
            missing.append(words[0])
    return missing


def matches(wanted, written):
    """Whether the written lines are the wanted ones; a line '...' matches any lines."""
    if not wanted:
        return not written
    if wanted[0] == '...':
        return any(matches(wanted[1:], written[k:]) for k in range(len(written) + 1))
    return bool(written) and wanted[0] == written[0] and matches(wanted[1:], written[1:])


def parts_of(text):
    """The document as (command, its lines) for commands and (None, lines) for all else, in order."""
    parts, kind, command = [(None, [])], None, False
    for line in text.split('\n'):
        if line.startswith('```'):
            kind = line[3:].strip() if kind is None else None
            parts.append((None, [line]))
            command = False
        elif kind == 'console' and line.startswith('$ '):
            parts.append((line[2:], []))
            command = True
        elif command and line.startswith('> ') and not parts[-1][1]:
            parts[-1] = (parts[-1][0] + '\n' + line[2:], [])
        else:
            parts[-1][1].append(line)
    return parts


def run(command, folder, path, status):
    """What the command writes, and its status; the status before it is $? in it."""
    environment = dict(os.environ, PATH=path + os.pathsep + os.environ['PATH'], LC_ALL='C')
    done = subprocess.run(['sh', '-c', '(exit %d)\n%s' % (status, command)], cwd=folder, env=environment,
                          stdin=subprocess.DEVNULL, stdout=subprocess.PIPE, stderr=subprocess.STDOUT)
    text = done.stdout.decode('utf-8', 'replace')
    lines = text.split('\n')
    if lines[-1] == '':
        lines.pop()
    return lines, done.returncode


def check(document, program, fill):
    """Runs a document; gives the numbers of commands that agreed, differed and were skipped."""
    text = open(document, encoding='utf-8').read()
    named = re.search(r'<!-- folder: (\S+) -->', text)
    agreed = differed = skipped = 0
    parts, status = parts_of(text), 0
    with tempfile.TemporaryDirectory() as top:
        path, folder = os.path.join(top, 'bin'), os.path.join(top, 'work')
        os.mkdir(path)
        os.symlink(os.path.abspath(program), os.path.join(path, 'lincs'))
        if named:
            shutil.copytree(os.path.join(ROOT, named.group(1)), folder)
        else:
            os.mkdir(folder)
        for at, (command, wanted) in enumerate(parts):
            if command is None:
                continue
            missing = missing_programs(command)
            if missing:
                print('%s: skipped, no %s: %s' % (document, ', '.join(missing), command))
                skipped += 1
                continue
            written, status = run(command, folder, path, status)
            if matches(wanted, written):
                agreed += 1
            else:
                differed += 1
                print('%s: $ %s' % (document, command))
                print('\n'.join(['  wanted:'] + ['    ' + x for x in wanted] + ['  written:'] + ['    ' + x for x in written]))
            if fill and '...' not in wanted:
                parts[at] = (command, written)
    if fill:
        lines = []
        for command, below in parts:
            if command is not None:
                first, *more = command.split('\n')
                lines += ['$ ' + first] + ['> ' + x for x in more]
            lines += below
        open(document, 'w', encoding='utf-8').write('\n'.join(lines))
    return agreed, differed, skipped


def main():
    words = sys.argv[1:]
    fill = '--fill' in words
    words = [w for w in words if w != '--fill']
    if not words:
        sys.exit(__doc__)
    documents = words[1:] or [os.path.join(ROOT, 'README.md'), os.path.join(ROOT, 'docs', 'USERS.md')]
    counts = [check(d, words[0], fill) for d in documents]
    agreed, differed, skipped = (sum(c) for c in zip(*counts))
    print('%d commands agree, %d differ, %d skipped' % (agreed, differed, skipped))
    sys.exit(1 if differed else 0)


if __name__ == '__main__':
    main()
