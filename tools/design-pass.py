#!/usr/bin/env python3
"""Writes docs/DESIGN-PASS-LISTS.md: what changed at the boundaries of the crates, old beside new. It proves nothing: it compares texts.

usage: python3 tools/design-pass.py [--unpaired]      at the top of the repository; the two sides are the commits before the pass and at its end

Compared are public functions and types, definitions of specs/, and public statements of proofs/. An item is found again at its place, else by
its type and name in its crate, else by what design-pass-pairs.txt beside this script says: crate::path::name, a tab, the new
crate::path::name, or `=` and where its promise stands now; a second tab, a remark. Items of specs and proofs are crate/File.name there, and
{a, b} in a name stands for either. Of what no other crate, or no other file of proofs, can name the page says only what went, and what states its
promise now. With --unpaired nothing is written: what went and is not paired is listed, and the exit status is 1 where there is any."""
import collections
import io
import pathlib
import re
import subprocess
import sys
import tarfile

OLD = '2e2bca693153c9712c72bb45c93663d93c391634'
NEW = 'b8e7e2e9f2d1f1c05b157ad3c3f60812f36b74ab'
TOP = pathlib.Path(__file__).resolve().parent.parent
KINDS = ['functions', 'types', 'definitions', 'theorems']
Item = collections.namedtuple('Item', 'path place name text public')  # place: what stays of the path when its file changes


def git(*words):
    return subprocess.run(['git', *words], cwd=TOP, check=True, capture_output=True).stdout


def files(commit):
    with tarfile.open(fileobj=io.BytesIO(git('archive', commit))) as tar:
        return {m.name: tar.extractfile(m).read().decode(errors='replace') for m in tar if m.isfile()}


def dedent(text):
    lines = [line.rstrip() for line in text.split('\n') if line.strip()]
    deep = min((len(line) - len(line.lstrip()) for line in lines), default=0)
    return '\n'.join(line[deep:] for line in lines)


def tokens(text):
    return [t for t in re.findall(r"[A-Za-z_][\w'ᵐ-]*|\S", re.sub(r',(\s*[)\]}>])', r'\1', text)) if t]


def respelled(a, b):
    """The names that turn a into b, where nothing but names of one and the same use differ; else None."""
    x, y, to, back = tokens(a), tokens(b), {}, {}
    if len(x) != len(y):
        return None
    for s, t in zip(x, y):
        if not (s[0].isalpha() or s[0] == '_') and s != t or to.setdefault(s, t) != t or back.setdefault(t, s) != s:
            return None
    return {s: t for s, t in to.items() if s != t}


# ---- sources

def closing(t, i):
    pairs, deep = {'{': '}', '(': ')', '[': ']', '<': '>'}, 0
    for k in range(i, len(t)):
        deep += (t[k] == t[i]) - (t[k] == pairs[t[i]])
        if not deep:
            return k + 1
    return len(t)


def bare(text):
    """Without comments, strings and characters, at the same length."""
    hide = lambda m: re.sub(r'[^\n]', ' ', m[0])  # noqa: E731
    return re.sub(r"""//[^\n]*|b?"(?:\\.|[^"\\])*"|b?'(?:\\[^\n]|[^'\\\n])'""", hide, text)


def head_end(t, i):
    """From a function's name to where its body starts: clauses have braces too."""
    while i < len(t) and t[i] not in '{;':
        if t[i] in '([':
            i = closing(t, i)
        elif m := re.compile(r'(requires|ensures)\b[^{;]*\{').match(t, i):
            i = closing(t, m.end() - 1)
        else:
            i += 1
    return i


def sources(crate, files):
    """Functions and types of a crate, with whether its callers can name them."""
    roots = [n for n in files if re.fullmatch(rf'crates/{crate}/src/.*\.rt', n)]
    functions, types = [], []
    library = f'crates/{crate}/src/lib.rt' in files
    shown = set()  # names that a file lets out by pub use
    for n in roots:
        for m in re.finditer(r'\bpub use [\w:]*?(\w+|\{[^}]*\});', bare(files[n])):
            shown |= set(re.findall(r'\w+', m[1]))

    def open_file(n):
        parts = n[len(f'crates/{crate}/src/'):-3].split('/')
        for k, part in enumerate(parts):
            parent = '/'.join(parts[:k]) or 'lib'
            if part not in ('lib', 'mod') and not re.search(rf'\bpub mod {part}\b', files.get(f'crates/{crate}/src/{parent}.rt', '')):
                return False
        return library

    for n in sorted(roots):
        raw, t = files[n], bare(files[n])
        plain = re.sub(r'//[^\n]*', lambda m: ' ' * len(m[0]), raw)
        mods = [p for p in n[len(f'crates/{crate}/src/'):-3].split('/') if p not in ('lib', 'main', 'mod')]
        around = []
        for m in re.finditer(r'\b(impl|trait|struct|enum|fn|mod|const)\b', t):
            around = [a for a in around if m.start() < a[0]]
            start = max(t.rfind(c, 0, m.start()) for c in ';{}') + 1
            attribute = max([e.end() for e in re.finditer(r'#\[[^\n]*\]\n', t[start:m.start()])], default=0)
            head = t[start + attribute:m.start()]
            pub = bool(re.search(r'\bpub\b(?!\()', head))
            owner = next((a for a in reversed(around) if a[1] in ('impl', 'trait')), None)
            if any(a[1] == 'tests' for a in around):
                continue
            if m[1] == 'fn':
                w = re.compile(r'\s+(\w+)').match(t, m.end())
                if not w:
                    continue
                end = head_end(t, w.end())
                text = dedent(plain[start + attribute:end])
                if owner and owner[1] == 'trait':
                    pub = owner[3]
                of = owner[2] if owner else ''
                seen = library and pub and (open_file(n) or (of or w[1]) in shown)
                if not (owner and owner[4]):  # what a trait's impl promises stands in the trait
                    functions.append(Item('::'.join([crate, *mods, *filter(None, [of]), w[1]]), (crate, of, w[1]), w[1], text, seen))
                around.append((closing(t, end) if t[end:end + 1] == '{' else end, 'fn', '', False, False))
                continue
            if m[1] == 'const' and (around or not pub):
                continue
            w = re.compile(r'\s+(\w+)').match(t, m.end())
            j = m.end()
            while j < len(t) and t[j] not in '{;':
                j = closing(t, j) if t[j] in '([' else j + 1
            end = closing(t, j) if t[j:j + 1] == '{' else j + 1
            name = w[1] if w else ''
            if m[1] == 'impl':
                of = re.sub(r'^\s*<.*?>\s(?!for)', '', t[m.end():j]).strip()
                name = re.match(r'(?:.*\bfor\s+)?(?:&\s*)?([\w:]+)', of)[1].split('::')[-1]
                around.append((end, 'impl', name, pub, ' for ' in of))
            elif m[1] == 'mod':
                around.append((end, 'tests' if name == 'tests' else 'mod', name, pub, False))
            elif not any(a[1] == 'fn' for a in around):
                text = dedent(plain[start:end])
                seen = library and pub and (open_file(n) or name in shown)
                types.append(Item('::'.join([crate, *mods, name]), (crate, m[1], name), name, text, seen))
                around.append((end, m[1], name, pub, False))
    return functions, types


# ---- definitions and proofs

def statements(crate, folder, files):
    out = []
    for n in sorted(files):
        m = re.fullmatch(rf'crates/{crate}/{folder}/(.*)\.antt', n)
        if not m:
            continue
        answers = folder == 'proofs' and '/' in m[1] and re.search(r'(Answers|Invariants)$', m[1])
        blocks, modules, now, header = [], [], None, False
        for line in files[n].split('\n'):
            line = re.sub(r'(^|\s)--(\s.*|-.*)?$', '', line).rstrip()
            if not line.strip():
                continue
            deep = len(line) - len(line.lstrip())
            if header:  # the head of a module goes on
                modules[-1][1] += ' ' + line.strip()
                header = not line.endswith('where')
                continue
            if now and deep > now[0]:
                now[3].append(line)
                continue
            modules = [x for x in modules if x[0] < deep]
            s = re.match(r"\s*((?:(?:abbrev|opaque|unfoldable|pub|instance)\s+)*)(?:(record|data)\s+(\S+)|([^\s:(){},.=|]+)(?=\s*:(?:\s|$)))", line)
            if not s:
                s = re.match(r"\s*((?:(?:abbrev|opaque|unfoldable|pub)\s+)+)()()([^\s:(){},.=|]+)$", line)
            if line.lstrip().startswith(('module ', 'pub module ')):
                now, header = None, not line.endswith('where')
                modules.append([deep, line.strip()])
            elif s and (s[3] or s[4]) not in ('use', 'mod', 'open', 'let', 'macro', 'unfolding'):
                now = [deep, s[3] or s[4], 'pub' in s[1].split(), [line], [x[1] for x in modules]]
                blocks.append(now)
            elif re.match(r'\s*(pub )?(use|mod|open|infix\w*|module)\b', line):
                now = None
            elif now:
                now[3].append(line)
        for deep, name, pub, lines, inside in blocks:
            if not name or answers and re.search(r':\s*goal\.', lines[0]):
                continue  # what a goal is answered by is no lemma
            if folder == 'proofs':  # the statement alone
                lines = lines[:1] + [x for x in lines[1:next((k for k, x in enumerate(lines[1:], 1) if len(x) - len(x.lstrip()) <= deep), len(lines))]]
            text = '\n'.join([re.sub(r'^\s*(pub )?module \S+ ?', 'given ', x).replace(' where', '') for x in inside if '(' in x or '{' in x] + [x[deep:] for x in lines])
            out.append(Item(f'{crate}/{m[1]}.{name}', (crate, name), name, text, pub or folder == 'specs'))
    return out


def read(files, crates):
    out = {k: [] for k in KINDS}
    for c in crates:
        f, t = sources(c, files)
        for k, items in zip(KINDS, (f, t, statements(c, 'specs', files), statements(c, 'proofs', files))):
            out[k] += items
    return out


# ---- old beside new

def pair(olds, news, table, used, told):
    """Each old item with its state, the new one if any, and a remark. What is found by name alone is used once."""
    found = {}
    squeezed = lambda i: ' '.join(tokens(i.text))  # noqa: E731
    by_path = {j.path: j for j in reversed(news)}
    for n, i in enumerate(olds):
        to, remark = table.get(i.path, ('', ''))
        if to.startswith('='):
            found[n] = (None, to[1:].strip() + remark)
        elif to in by_path:
            found[n] = (by_path[to], remark)
            told.add(id(by_path[to]))
        elif to:
            print('pairs: nothing has the name', to, file=sys.stderr)
    tests = [lambda i, j: i.path == j.path and squeezed(i) == squeezed(j), lambda i, j: i.path == j.path, lambda i, j: i.place == j.place,
             lambda i, j: (i.place[0], i.name) == (j.place[0], j.name), lambda i, j: i.name == j.name and squeezed(i) == squeezed(j)]
    for test in tests:
        by_name = collections.defaultdict(list)
        for j in news:
            if id(j) not in used:
                by_name[j.name].append(j)
        for n, i in enumerate(olds):
            if n in found:
                continue
            j = next((j for j in sorted(by_name[i.name], key=lambda j: not j.public) if id(j) not in used and test(i, j)), None)
            if j:
                found[n] = (j, '')
                used.add(id(j))
    rows = []
    for n, i in enumerate(olds):
        j, remark = found.get(n, (None, ''))
        if not j:
            rows.append((i, None, 'gone', remark))
            continue
        same = squeezed(i) == squeezed(j)
        moved = i.path != j.path or i.public != j.public
        words = None if same else respelled(i.text, j.text)
        state = ('moved' if moved else 'same') if same else 'spelling' if words is not None else 'moved and changed' if moved else 'changed'
        rows.append((i, j, state, remark or (', '.join(f'{a} → {b}' for a, b in words.items()) if words else '')))
    return rows


def either(name):
    """The names that one with {a, b} stands for."""
    m = re.search(r'\{([^}]*)\}', name)
    return [name] if not m else [x for w in m[1].split(',') for x in either(name[:m.start()] + w.strip() + name[m.end():])]


def read_pairs(file, olds, news, crates):
    """What the file says of each old name. A name in it that nothing has, or had, is said."""
    table, names, went = {}, {i.path for i in news}, {i.path for i in olds}
    for line in file.read_text().split('\n') if file.exists() else []:
        if not line.strip() or line.startswith('#'):
            continue
        cells = line.split('\t') + ['', '']
        for name in either(cells[0]):
            if name in table or name not in went:
                print('pairs: twice, or nothing had the name', name, file=sys.stderr)
            table[name] = (cells[1], cells[2])
        for span in re.findall(r'`([^`]+)`', cells[1] + cells[2]):
            for name in either(span) if re.match(r'\w*', span)[0] in crates and re.fullmatch(r'\w+(::\w+)+(::\{[^}]*\})?|\w+/[\w/+]+\..+', span) else []:
                if name not in names:
                    print('pairs: nothing has the name', name, file=sys.stderr)
    return table


def short(text):
    text = re.sub(r'"([^"]{60})[^"]{20,}"', r'"\1…"', text)
    return '\n'.join(line if len(line) < 400 else line[:400] + '…' for line in text.split('\n'))


def beside(out, row, language):
    i, j, state, remark = row
    inside = '' if not j or j.public else ', inside the crate now'
    out.append(f'`{i.path}`' + (f' → `{j.path}`' if j and j.path != i.path else '') + f': {state}{inside}' + (f'. {remark}' if remark else '') + '\n')
    if state == 'moved' or state == 'spelling':
        return
    out.append('```diff')
    out.extend('- ' + line for line in short(i.text).split('\n'))
    if j:
        out.extend('+ ' + line for line in short(j.text).split('\n'))
    out.append('```\n')


def last(path, crate=''):
    """A path as its own crate's part of the page names it."""
    return path.split('/', 1)[1] if '/' in path and path.split('/')[0] == crate else path


def went(out, label, rows):
    """What went, with what states its promise now: a line for each answer."""
    if not rows:
        return
    hidden = sum(not r[0].public for r in rows) if '/' in rows[0][0].path else 0
    out.append(f'{label} ({len(rows)}' + (f', {hidden} of them inside their file' if hidden else '') + '), and what states their promise now:\n')
    by = {}
    for i, j, state, remark in rows:
        answer = (f'`{last(j.path, i.place[0])}`' + (f', {remark}' if remark else '')) if j else remark or 'not paired'
        by.setdefault(answer, []).append(f'`{last(i.path, i.place[0])}`')
    out.extend(f"- {', '.join(names)}: {answer}" for answer, names in by.items())
    out.append('')


def main():
    old, new = files(OLD), files(NEW)
    crates = [m[1] for m in re.finditer(r'(?m)^(\w+)[^:\n]*:', new['crates.txt'])]
    olds, news = read(old, crates), read(new, crates)
    pages = [old[n] for n in old if n == 'README.md' or re.fullmatch(r'docs/[^/]*\.md', n)]
    named = {w for p in pages for span in re.findall(r'`([^`\n]+)`', p) for w in re.findall(r"[A-Za-z_][\w'+-]*", span)}
    table = read_pairs(TOP / 'tools/design-pass-pairs.txt', sum(olds.values(), []), sum(news.values(), []), crates)
    results, inside = {}, {}
    for k in KINDS:
        used, told = set(), set()
        rows = pair([i for i in olds[k] if i.public], news[k], table, used, told)
        results[k] = rows, [j for j in news[k] if j.public and id(j) not in used | told]
        inside[k] = pair([i for i in olds[k] if not i.public], news[k], table, used, told)
    unpaired = [f'not paired: {k} {i.path}' for k in KINDS for i, j, state, remark in results[k][0] + inside[k] if state == 'gone' and not remark]
    if '--unpaired' in sys.argv:
        print('\n'.join(unpaired + [f'{len(unpaired)} not paired']))
        sys.exit(bool(unpaired))
    states = ['same', 'spelling', 'moved', 'changed', 'moved and changed', 'gone']
    out = ['# The lists of the design pass\n', f'What stood at `{OLD[:7]}` beside what stood at `{NEW[:7]}`, when the pass was done, by crate, lowest first. `tools/design-pass.py` writes this page.\n',
           'A line with `-` is old, one with `+` new. *Spelling*: nothing but names changed, each to one other. *Moved*: the same text at another place. '
           'A function or type counts as public where callers of its crate can name it; programs have none. A theorem counts as public where other files can cite it. '
           'Of the others only those that went, or stand under another name, are listed.\n',
           '| | old | ' + ' | '.join(states) + ' | new ones |', '|---|' + '---:|' * (len(states) + 2)]
    for k in KINDS:
        rows, fresh = results[k]
        n = collections.Counter(r[2] for r in rows)
        out.append(f'| {"public " if k != "definitions" else ""}{k} | {len(rows)} | ' + ' | '.join(str(n[s]) for s in states) + f' | {len(fresh)} |')
    for k in KINDS:
        n = collections.Counter(r[2] for r in inside[k])
        if inside[k]:
            out.append(f'| other {k} | {len(inside[k])} | ' + ' | '.join(str(n[s]) for s in states) + ' | |')
    out.append('')
    for c in crates:
        out.append(f'## {c}\n')
        for k in KINDS:
            rows = [r for r in results[k][0] if r[0].place[0] == c]
            hidden = [r for r in inside[k] if r[0].place[0] == c and (not r[1] or r[0].path != r[1].path)]
            fresh = [j for j in results[k][1] if j.place[0] == c]
            differ = [r for r in rows if r[2] != 'same']
            if k != 'theorems':
                if differ or fresh or hidden:
                    out.append(f'### {c}: {k}\n')
                for r in differ:
                    beside(out, r, k)
                if fresh:
                    out.append('New: ' + ', '.join(f'`{j.path}`' for j in fresh) + '.\n')
                went(out, 'Inside the crate, gone or at another place', hidden)
                continue
            if not rows and not hidden:
                continue  # only new ones
            out.append(f'### {c}: theorems\n')
            for r in differ:
                if r[0].name in named:
                    beside(out, r, k)
            if kept := [r[0].path.split('/', 1)[1] for r in rows if r[2] == 'same' and r[0].name in named]:
                out.append('Named in the pages of old, and kept: ' + ', '.join(f'`{p}`' for p in kept) + '.\n')
            by = collections.defaultdict(list)
            for r in rows:
                at = '' if not r[1] or r[1].path == r[0].path else f' → `{last(r[1].path, c)}`'
                label = 'Gone' if r[2] == 'gone' or r[0].path in table else 'Changed' if 'changed' in r[2] else 'Kept'
                by[label].append(r if label == 'Gone' else f'`{last(r[0].path, c)}`{at}')
            for label in ('Kept', 'Changed'):
                if by[label]:
                    out.append(f'{label} ({len(by[label])}): ' + ', '.join(by[label]) + '.\n')
            went(out, 'Gone or under another name', by['Gone'] + hidden)
    (TOP / 'docs/DESIGN-PASS-LISTS.md').write_text('\n'.join(out).rstrip() + '\n')
    print('\n'.join([line for line in out if line.startswith('|')] + unpaired))


main()
