#!/usr/bin/env bash
# What the documents name is there: each `Module.name` of TRACE and ARCHITECTURE is defined in a module of that name, each crate of
# crates.txt has its row and each row its crate, and each edit that must fail stands in the table of wrong programs.
set -euo pipefail
cd "$(dirname "$0")/.."
python3 - <<'PY'
import glob, os, re, sys

wrong = []
modules = {}
for path in glob.glob('crates/*/specs/*.antt') + glob.glob('crates/*/proofs/*.antt'):
    modules.setdefault(os.path.basename(path)[:-5], []).append(path)
named = 0
for doc in ['docs/TRACE.md', 'docs/ARCHITECTURE.md']:
    for module, name in re.findall(r"\b([A-Z][A-Za-z]+)\.([A-Za-z][A-Za-z0-9_'-]*)", open(doc).read()):
        if module not in modules:
            continue
        named += 1
        if not any(re.search(r'(?<![\w-])' + re.escape(name) + r'(?![\w-])', open(p).read()) for p in modules[module]):
            wrong.append(f'{doc}: {module}.{name} is not there')

text = open('docs/ARCHITECTURE.md').read()
rows = set(re.findall(r'^\| `(\w+)` \|', text, re.M))
crates = set(re.findall(r'^(\w+)(?: staticlib)?:', open('crates.txt').read(), re.M))
wrong += [f'ARCHITECTURE: no row for crate {c}' for c in sorted(crates - rows)]
wrong += [f'ARCHITECTURE: a row for {c}, which is no crate' for c in sorted(rows - crates)]

table = text[text.index('## Wrong programs'):]
edits = [(p.split('/')[1], os.path.basename(p)[:-5]) for p in glob.glob('crates/*/must-fail/*.edit')]
told = set()
for line in table.splitlines():
    for names, crate in re.findall(r'((?:`\w+`(?:, | and )?)+) in (\w+)', line):
        told |= {(crate, n) for n in re.findall(r'`(\w+)`', names)}
    for n in re.findall(r'must-fail `(\w+)`(?! in|,)', line):
        told.add(('model', n))
wrong += [f'ARCHITECTURE: the edit {n} of {c} is in no row' for c, n in sorted(set(edits) - told)]
wrong += [f'ARCHITECTURE: {n} of {c} is no edit' for c, n in sorted(told - set(edits))]

for line in wrong:
    print(line)
print(f'docs: {named} names of definitions and laws, {len(crates)} crates, {len(edits)} edits that must fail')
sys.exit(1 if wrong else 0)
PY
