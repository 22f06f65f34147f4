#!/usr/bin/env python3
"""Brings this repository's own definitions and lemmas to Rattle's spelling, once, after the kit's port script: words in snake case
(`markAt` is `mark_at`), and underscores between the words of a name (`fact-holds` is `fact_holds`). A name keeps its dash where the
underscore would make it another name that is in use, and the names of the library, of src/ and of what Rattle makes keep theirs.

    python3 tools/respell.py [FOLDER]        prints each name that is told apart by hand, and rewrites the files below FOLDER
"""
import glob
import os
import re
import sys

TOP = sys.argv[1] if len(sys.argv) > 1 else '.'

# Names that would fall together with another name of the same scope.
BY_HAND = {
    'goesOn': 'goes_on_after',         # `playing::turns` has a field `goes_on`
    'list_length': 'list_length_lem',  # a lemma on `listLength`
    'first_rows': 'first_rows_lem',    # a lemma on `firstRows`
}

# Files whose names are Rattle's own now.
MODULES = {
    'running/specs/Contracts': 'running/specs/Promises',
    'worked_table/specs/Contracts': 'worked_table/specs/WorkedContracts',
}

BREAKS = r'\s(){}\[\].,;:«»`'
TOKEN = re.compile('[^%s]+' % BREAKS)


def files(*patterns):
    found = []
    for pattern in patterns:
        found += glob.glob(os.path.join(TOP, pattern), recursive=True)
    return sorted(found)


ANTT = files('crates/*/specs/**/*.antt', 'crates/*/proofs/**/*.antt')
SOURCES = files('crates/*/src/**/*.rt')
PAGES = files('README.md', 'docs/**/*.md', 'crates/*/README.md')
EDITS = files('crates/*/must-fail/*.edit')

texts = {f: open(f, encoding='utf8').read() for f in ANTT + SOURCES + PAGES + EDITS}


def code_of(text):
    return re.sub(r'(?m)(^|\s)--\s.*$', '', text)


def snake(name):
    return re.sub(r'(?<=[a-z0-9])([A-Z])', lambda m: '_' + m.group(1).lower(), name)


# what is imported from elsewhere
foreign = set()
for f in ANTT + SOURCES:
    for m in re.finditer(r'(?ms)^\s*(?:ghost |pub )?use ([A-Za-z_+][^;{\n]*?)\.\{(.*?)\}', texts[f]):
        crate = m.group(1).split('.')
        own = crate[0] == 'Rattle' and os.path.isdir(os.path.join(TOP, 'crates', crate[1])) if len(crate) > 1 else False
        if not own or 'declared' in crate or 'Tie' in crate:
            foreign |= set(TOKEN.findall(m.group(2)))

tokens = set()
for f in ANTT + SOURCES:
    tokens |= set(TOKEN.findall(code_of(texts[f])))

# what is declared here: a name before a colon, at the start of a line or behind `pub`, `abbrev`, `unfoldable`
declared = set()
for f in ANTT:
    in_function = re.search(r'/proofs/.*/Proof\.antt$', f)
    if in_function:
        continue
    for m in re.finditer(r"(?m)^\s*(?:(?:pub|abbrev|unfoldable) )*([^\s(){}\[\].,;:«»]+)\s*:(?:\s|$)", code_of(texts[f])):
        declared.add(m.group(1))
    for m in re.finditer(r"(?m)^\s*\| ([^\s(){}\[\].,;:«»]+)", code_of(texts[f])):
        declared.add(m.group(1))

camel = {t for t in tokens if re.match(r"[a-z][A-Za-z0-9]*[A-Z]", t) and re.fullmatch(r"[A-Za-z0-9_'₀-₉-]+", t)}
dashed = {t for t in declared if '-' in t and re.fullmatch(r"[a-z][A-Za-z0-9_'₀-₉-]*", t)}

renamed, kept = {}, []
for old in sorted(camel - dashed) + sorted(dashed):
    if old in foreign:
        continue
    if old in BY_HAND:
        continue
    new = snake(old)
    if old in dashed:
        flat = new.replace('-', '_')
        if flat in tokens or flat in renamed.values() or flat in foreign:
            kept.append((old, new, flat))
        else:
            new = flat
    if new != old:
        renamed[old] = new
renamed.update(BY_HAND)

# two names of one file that become one
for f in ANTT + SOURCES:
    seen = {}
    for t in sorted(set(TOKEN.findall(code_of(texts[f])))):
        seen.setdefault(renamed.get(t, t), []).append(t)
    for new, olds in sorted(seen.items()):
        if len(olds) > 1:
            print('together: %s: %s -> %s' % (os.path.relpath(f, TOP), ' '.join(olds), new))
for old, new, flat in kept:
    print('kept: %s (%s is another name)' % (new, flat))


def turned(text):
    return TOKEN.sub(lambda m: renamed.get(m.group(0), m.group(0)), text)


def turned_page(text):
    return re.sub(r'(?s)```.*?```|`[^`\n]*`', lambda m: turned(m.group(0)), text)


def turned_comments(text, mark):
    """Code whole; in comments names in camel case, and the others only between backticks."""
    lines = []
    for line in text.split('\n'):
        m = re.search(r'(^|\s)%s(?=\s|$)' % mark, line)
        if m:
            head, tail = line[:m.start()], line[m.start():]
            tail = turned_page(tail)
            tail = TOKEN.sub(lambda t: renamed[t.group(0)] if t.group(0) in renamed and t.group(0) in camel else t.group(0), tail)
            lines.append(turned(head) + tail)
        else:
            lines.append(turned(line))
    return '\n'.join(lines)


def moved(text, crate):
    for old, new in MODULES.items():
        name, heir = os.path.basename(old), os.path.basename(new)
        text = re.sub(r'\b%s\b' % ('Rattle/' + old).replace('/', '[.]'), ('Rattle/' + new).replace('/', '.'), text)
        if crate == old.split('/')[0]:
            text = re.sub(r'(?m)^(pub mod |file: specs/)%s\b' % name, r'\g<1>' + heir, text)
    return text


changed = 0
for f in ANTT + SOURCES + PAGES + EDITS:
    old = texts[f]
    if f.endswith('.md'):
        new = turned_page(old)
    elif f.endswith('.edit'):
        new = turned_comments(old, '#')
    else:
        new = turned_comments(old, '--' if f.endswith('.antt') else '//')
    new = moved(new, os.path.relpath(f, TOP).split(os.sep)[1]) if not f.endswith('.md') else new
    if new != old:
        changed += 1
        open(f, 'w', encoding='utf8').write(new)
for old, new in MODULES.items():
    source = os.path.join(TOP, 'crates', old + '.antt')
    if os.path.exists(source):
        os.rename(source, os.path.join(TOP, 'crates', new + '.antt'))
print('%d names, %d files' % (len(renamed), changed))
