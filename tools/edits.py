"""Reads the must-fail edits. Where a line `# FUNCTION/LABEL: what is wrong` stands before its pairs, an edit holds several wrong programs, one
in each of several functions of the crate, and each of these functions is refused by itself; an edit without such a line is one wrong
program, and is called by its file's name. Wrong statements and wrong rules (.ci/rule-edits) are such; theirs may say `wrong: ..` for it."""
import os
import re

HEAD = re.compile(r'# (\w+)/(\w+): (.+)')


class Wrong:
    """A wrong program: the function that is refused ('' where an edit is one whole), label, what is wrong, and (file, old, new) pairs."""

    def __init__(self, function, label, what):
        self.function, self.label, self.what, self.pairs = function, label, what, []


def read(path):
    """The wrong programs of a file."""
    wrong, file, old = [], '', None
    for line in open(path, encoding='utf-8').read().split('\n'):
        head = HEAD.fullmatch(line)
        if head:
            wrong.append(Wrong(*head.groups()))
        elif line.startswith(('# ', 'wrong: ')) and not wrong:
            wrong.append(Wrong('', os.path.basename(path)[:-5], line.partition(' ')[2]))
        elif line.startswith('file: '):
            file = line[6:]
        elif line.startswith('old: '):
            old = line[5:]
        elif line.startswith('new:'):
            wrong[-1].pairs.append((file, old, line[5:]))
    return wrong


def files(crate, kind='must-fail'):
    """The edit files of a crate: must-fail edits, or `wrong-statements`."""
    folder = os.path.join('crates', crate, kind)
    return [os.path.join(folder, f) for f in sorted(os.listdir(folder))] if os.path.isdir(folder) else []


def lines():
    """The lines of crates.txt: a crate's name, whether it is a static library, and the crates that it names."""
    for line in open('crates.txt', encoding='utf-8'):
        words, _, needs = line.split('#')[0].partition(':')
        if words.strip():
            yield words.split()[0], 'staticlib' in words.split()[1:], needs.split()


def crates():
    return [name for name, _, _ in lines()]


def static():
    return [name for name, is_static, _ in lines() if is_static]


def jobs():
    """How many checks run side by side: RT_JOBS, or a processor each as far as there are 4 GB for it."""
    if os.environ.get('RT_JOBS', '').isdigit():
        return max(1, int(os.environ['RT_JOBS']))
    free = re.search(r'MemAvailable:\s+(\d+)', open('/proc/meminfo', encoding='utf-8').read())
    return max(1, min(len(os.sched_getaffinity(0)), int(free.group(1)) // 4_000_000))
