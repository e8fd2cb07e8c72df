"""All crates in one process of the prover: each is passed as source, without its functions and their proofs unless these are asked for. What
one run has checked is saved, so the next checks what depends on a change. A theorem sees no function, so this is the whole verdict on
definitions and theorems."""
import os
import re
import shutil
import subprocess

import edits

FUNCTION = re.compile(r'(pub )?(extern "C" )?fn ')
# what is a proof of a function
OF_FUNCTION = ('Answers.antt', 'Invariants.antt', 'Proof.antt')


def kit():
    """The kit's folder."""
    said = subprocess.run(['rt', 'doc'], stdout=subprocess.PIPE, text=True, check=True).stdout
    return os.path.dirname(said.strip())


def without_functions(folder):
    """Leaves a crate's types, constants, definitions and theorems, and takes out its functions and impls, those of derives too, with their proofs."""
    for place, _, files in os.walk(os.path.join(folder, 'src')):
        for name in files:
            path = os.path.join(place, name)
            kept, held, skip = [], [], False
            for line in open(path, encoding='utf-8').read().split('\n'):
                if line.startswith('#['):
                    held += [line] * (not line.startswith('#[derive('))
                    continue
                if FUNCTION.match(line) or line.startswith('impl') and not line.endswith('}'):
                    skip, held = True, []
                elif line.startswith('impl'):
                    held = []
                    continue
                if not skip:
                    kept += held + [line]
                    held = []
                elif line.startswith('}'):
                    skip = False
            open(path, 'w', encoding='utf-8').write('\n'.join(kept))
    proofs = os.path.join(folder, 'proofs')
    for place, _, files in list(os.walk(proofs)):
        if place != proofs and {*files} & {*OF_FUNCTION}:
            shutil.rmtree(place, ignore_errors=True)


class Crates:
    """The crates of crates.txt, each with those that it names, and the words by which the prover is called."""

    def __init__(self):
        lines = list(edits.lines())
        own = {name for name, _, _ in lines}
        self.deps = {name: [other for other in needs if other in own] for name, _, needs in lines}
        self.of_kit = {name: [other for other in needs if other not in own] for name, _, needs in lines}

    def below(self, wanted):
        """These crates and all that they use, the lowest first."""
        seen = []

        def visit(name):
            if name in self.deps and name not in seen:
                for other in self.deps[name]:
                    visit(other)
                seen.append(name)

        for name in wanted:
            visit(name)
        return seen

    def over(self, name):
        """Of a crate, called in a folder that has its src/: over what is built of the crates below."""
        home = kit()
        root = 'src/main.rt' if os.path.isfile(os.path.join('crates', name, 'src', 'main.rt')) else 'src/lib.rt'
        words = ['--crate-name', name, root, '--extern', f'std={home}/rlibs/std.rlib', '-L', f'dependency={home}/rlibs']
        for other in self.deps[name]:
            words += ['--extern', f'{other}={os.path.abspath(os.path.join("crates", other, "out", "rlib", other + ".rlib"))}']
        for other in self.of_kit[name]:
            words += ['--extern', f'{other}={home}/rlibs/{other}.rlib']
        for other in self.below([name])[:-1]:
            words += ['-L', f'dependency={os.path.abspath(os.path.join("crates", other, "out", "rlib"))}']
        return words + ['--antt-project', f'{home}/rattle/logic/antt-project.json', '--logic-built', f'{home}/logic_built', '--links', f'{name}=']

    def build(self, name):
        return [os.path.join(kit(), 'bin', 'rattle'), 'build', *self.over(name)]


def shared(saved, to):
    """What was saved, for one more run: the prover puts a new file in the place of an old one, so the files can be links."""
    shutil.copytree(saved, to, copy_function=os.link)


class Tree(Crates):
    """The crates as the check of all in one process sees them: each by its folder."""

    def __init__(self, work, whole):
        super().__init__()
        self.work, self.whole = work, whole
        for name in self.deps:
            self.copy(name, work)
        os.makedirs(os.path.join(work, 'top', 'src'))
        with open(os.path.join(work, 'top', 'src', 'lib.rt'), 'w', encoding='utf-8') as top:
            top.write('// All crates are passed as libraries.\n')

    def copy(self, name, place, pairs=(), bare=False):
        """A crate's copy below a place, with the edit's pairs made, and without its functions; `bare`: without its lemmas too."""
        folder = os.path.join(place, 'crates', name)
        for part in ('src', 'specs') if bare else ('src', 'specs', 'proofs'):
            if os.path.isdir(os.path.join('crates', name, part)):
                shutil.copytree(os.path.join('crates', name, part), os.path.join(folder, part))
        for path, old, new in pairs:
            path = os.path.join(folder, path)
            text = open(path, encoding='utf-8').read() if os.path.isfile(path) else ''
            if not old or text.count(old) != 1:
                raise ValueError(f"'old: {old}' does not stand exactly once in {os.path.relpath(path, place)}")
            open(path, 'w', encoding='utf-8').write(text.replace(old, new))
        if not self.whole:
            without_functions(folder)

    def cites_none(self, name):
        """Whether the proofs of a crate cite no lemma of another."""
        cited = re.compile(rf'^(?:pub )?use Rattle\.(?!{name}\.)\w+\.proofs\b', re.M)
        folder = os.path.join(self.work, 'crates', name, 'proofs')
        return not any(cited.search(open(os.path.join(place, f), encoding='utf-8').read()) for place, _, files in os.walk(folder) for f in files)

    def only(self, name, place, theorem):
        """Leaves of the proofs of a crate's copy the module with a theorem, and those that this one cites; all where none has it."""
        folder = os.path.join(place, 'crates', name, 'proofs')
        text = {f[:-5]: open(os.path.join(folder, f), encoding='utf-8').read() for f in os.listdir(folder) if f.endswith('.antt')}
        text.pop('Lib', None)
        todo = [m for m in text if re.search(rf'^(pub )?{re.escape(theorem)} :', text[m], re.M)]
        kept = []
        while todo:
            module = todo.pop()
            if module not in kept:
                kept.append(module)
                todo += re.findall(rf'^(?:pub )?use Rattle\.{name}\.proofs\.(\w+)', text[module], re.M)
        if kept:
            for module in set(text) - set(kept):
                os.remove(os.path.join(folder, module + '.antt'))
            with open(os.path.join(folder, 'Lib.antt'), 'w', encoding='utf-8') as lib:
                lib.write(''.join(f'pub mod {module}\n' for module in kept))

    def check(self, wanted, saved, *places, jobs=1):
        """What the prover says of these crates and all below, each from the first of `places` that has it, or ours."""
        home = kit()
        top = os.path.join(self.work, 'top', 'src', 'lib.rt')
        words = [os.path.join(home, 'bin', 'rattle'), 'check', '--crate-name', 'top', top,
                 '--antt-project', f'{home}/rattle/logic/antt-project.json', '--logic-built', f'{home}/logic_built',
                 '--jobs', str(jobs), '--incremental', saved, '-L', f'dependency={home}/rlibs', '--extern', f'core={home}/rlibs/core.rlib',
                 '--extern', f'std={home}/rlibs/std.rlib']
        for other in sorted({other for name in self.below(wanted) for other in self.of_kit[name]}):
            words += ['--extern', f'{other}={home}/rlibs/{other}.rlib']
        for name in self.below(wanted):
            folders = (os.path.join(place, 'crates', name) for place in (*places, self.work))
            folder = next(f for f in folders if os.path.isdir(f))
            root = os.path.join(folder, 'src', 'lib.rt')
            words += ['--lib', f'{name}:{",".join(["core", "std"] + self.of_kit[name] + self.deps[name])}={root}']
        return subprocess.run(words, stdout=subprocess.PIPE, stderr=subprocess.STDOUT, text=True, errors='replace').stdout
