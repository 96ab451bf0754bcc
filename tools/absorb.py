#!/usr/bin/env python3
# absorb.py Y X ..: the crates X become modules of the crate Y. Files are moved with git and the paths of antt are rewritten everywhere; by hand are left
# `mod X;` and `use crate::X;` in the sources, crates.txt, and calls from other crates. Definitions (specs) of all stand side by side in Y.
import glob, os, subprocess, sys

Y, absorbed = sys.argv[1], sys.argv[2:]


def git(*words):
    subprocess.run(['git', *words], check=True)


def lines(path):
    return [line for line in open(path).read().split('\n') if line.strip()] if os.path.exists(path) else []


def move(X):
    git('mv', f'crates/{X}/src/lib.rt', f'crates/{Y}/src/{X}.rt')
    for folder in ('specs', 'proofs', 'must-fail'):
        os.makedirs(f'crates/{Y}/{folder}', exist_ok=True)
    for path in sorted(glob.glob(f'crates/{X}/specs/*')):
        if path.endswith('/Lib.antt'):
            both = lines(f'crates/{Y}/specs/Lib.antt') + lines(path)
            open(f'crates/{Y}/specs/Lib.antt', 'w').write('\n'.join(both) + '\n')
            git('add', f'crates/{Y}/specs/Lib.antt')
            git('rm', '-qf', path)
        else:
            git('mv', path, f'crates/{Y}/specs/')
    if os.path.exists(f'crates/{X}/proofs'):
        os.makedirs(f'crates/{Y}/proofs/{X}', exist_ok=True)
        for path in sorted(glob.glob(f'crates/{X}/proofs/*')):
            git('mv', path, f'crates/{Y}/proofs/{X}.antt' if path.endswith('/Lib.antt') else f'crates/{Y}/proofs/{X}/')
    for path in sorted(glob.glob(f'crates/{X}/must-fail/*.edit')):
        to = f'crates/{Y}/must-fail/{os.path.basename(path)}'
        if os.path.exists(to):
            sys.exit(f'{to} is there already: rename one')
        git('mv', path, to)
        text = open(to).read().replace('file: src/lib.rt', f'file: src/{X}.rt')
        open(to, 'w').write(text)


def repath(text, X):
    # one form of path, in the crate itself and in others
    text = text.replace(f'Rattle.{X}.specs.declared.', f'Rattle.{Y}.specs.declared.{X}.').replace(f'Rattle.{X}.specs.', f'Rattle.{Y}.specs.')
    return text.replace(f'Rattle.{X}.proofs.', f'Rattle.{Y}.proofs.{X}.')


for X in absorbed:
    move(X)
for path in glob.glob('crates/**', recursive=True):
    if path.endswith(('.rt', '.antt', '.edit')):
        text = before = open(path).read()
        for X in absorbed:
            text = repath(text, X)
        if text != before:
            open(path, 'w').write(text)
            print(path)
