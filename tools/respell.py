#!/usr/bin/env python3
"""Spells the repository's own definitions and lemmas as today's Rattle does: words in snake case. Run once, at the top, after the kit's port.py.

The names are in respelled.tsv beside this script: old, a tab, new. What turns: the text of crates/*/specs and proofs, the clauses and `ghost use`
items of crates/*/src, the code spans of README.md and docs/. Functions, types and fields of src/, exported C names and strings keep theirs."""
import os
import pathlib
import subprocess
import sys
import tempfile

here = pathlib.Path(__file__).resolve().parent
kit = pathlib.Path(os.environ.get('RATTLE_KIT', '/opt/rattle'))
snake = kit / 'port/notes/2026-11-18-names-are-in-snake-case/snake.py'
table = here / 'respelled.tsv'
# a lemma that would have a definition's name: behind a dot its old name is the label of a call in a proof, which stays
lemmas = [row.split('\t')[0] for row in table.read_text().splitlines() if row.endswith('_lem')]

with tempfile.NamedTemporaryFile('w', suffix='.txt') as stay:
    stay.write(''.join(name + '\n' for name in lemmas))
    stay.flush()
    words = ['--table', str(table), '--only', 'antt,rt,md', '--keep-after-dot', stay.name, 'crates', 'docs', 'README.md']
    sys.exit(subprocess.run([sys.executable, '-B', str(snake), *words]).returncode)
