# Shows that docs/TRACE.md cites what is there: each `file: names` a file of crates/ (or of the repository) with these
# names in it, each `crate::..::function` a function of that crate's src/, each name after 'must-fail' an edit. Prints
# 'trace: N citations, 0 stale' and exits 0; else lists what is stale and exits 1. Needs python3, works from any folder.
from pathlib import Path
import re
import sys

ROOT = Path(__file__).resolve().parent.parent
CRATES = ROOT / 'crates'
text = (ROOT / 'docs' / 'TRACE.md').read_text(encoding='utf-8')
sources = {}
for crate in CRATES.iterdir():
    sources[crate.name] = '\n'.join(f.read_text(encoding='utf-8') for f in sorted(crate.glob('src/**/*.rt')))
edits = {f.stem for f in CRATES.glob('*/must-fail/*.edit')}

cited, stale = 0, []


def missing(what):
    stale.append(what)


def file_of(name):
    for base in (CRATES, ROOT):
        if (base / name).exists():
            return base / name
    return None


for token in re.findall(r'`([^`\n]+)`', text):
    with_names = re.fullmatch(r'([\w./-]+\.(?:antt|rt|py|rs|c|h|sh)): (.+)', token)
    call = re.fullmatch(r'(\w+)((?:::\w+)+)', token)
    if with_names:
        path = file_of(with_names[1])
        if path is None:
            missing(token)
            continue
        whole = path.read_text(encoding='utf-8')
        for name in with_names[2].split(', '):
            cited += 1
            if not re.search(r"(?<![\w'-])" + re.escape(name) + r"(?![\w'-])", whole):
                missing(f'{with_names[1]}: {name}')
    elif re.fullmatch(r'[\w.-]+(?:/[\w.-]+)+', token) and not token.startswith(('proofs/', 'must-fail/')):
        cited += 1
        if file_of(token) is None:
            missing(token)
    elif call and call[1] in sources:
        cited += 1
        if not re.search(r'\bfn ' + call[2].split('::')[-1] + r'\b', sources[call[1]]):
            missing(token)

for run in re.findall(r'must-fail ((?:`\w+`(?:, | and )?)+)', text):
    for name in re.findall(r'`(\w+)`', run):
        cited += 1
        if name not in edits:
            missing('must-fail ' + name)

for what in sorted(set(stale)):
    print('trace: stale:', what)
print(f'trace: {cited} citations, {len(set(stale))} stale')
sys.exit(1 if stale else 0)
