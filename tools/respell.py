#!/usr/bin/env python3
"""respell.py [--map]: brings the names of this repository's definitions and lemmas to snake case, as the toolchain's style has them.

Run once, at the top, after the toolchain's port.py. A definition, lemma, field or constructor that begins with a small letter and is
written in camel case or with dashes gets underscores: `buildAnswer` is `build_answer`, `nan-bits` is `nan_bits`. Names that begin with
a capital stay: types, facts, and the constructors named after the records' marks (`Tv`, `Vs`). So do the names of src/, of exported
functions, of goals and steps that the toolchain makes, and all strings. Where two names would fall together the lemma gets `_lem`.
With --map it prints old and new names and changes nothing.
"""
import glob, os, re, sys

END = r'\s(){}\[\];,.:"|«»⌜⌝'
TOKEN = re.compile(rf'[^{END}]+')
MODS = r'(?:(?:unfoldable|abbrev|pub|infix[lr]?)\s+)*'
SIG = re.compile(rf'^\s*{MODS}((?:[^{END}]+\s+)+):\s')
HEAD = re.compile(rf'^\s*(?:(?:unfoldable|abbrev|pub)\s+)+([^{END}]+)\s+[({{]')
KEYWORDS = {'let', 'in', 'elim', 'use', 'module', 'where', 'mod', 'mutual', 'unfolding', 'record', 'data', 'do', 'λ', 'rw', 'as', 'ruleset'}
PLAIN = re.compile(r"^[a-zα-ω][A-Za-z0-9_'₀-₉α-ω?-]*$")


def files(*patterns):
    return sorted(f for p in patterns for f in glob.glob(p, recursive=True) if '/out/' not in f)


def strip(text):
    return re.sub(r'(^|\s)--(\s.*)?$', r'\1', text, flags=re.M)


def snake(name):
    name = name.replace('-', '_')
    name = re.sub(r'(?<=[a-z0-9])([A-Z])', lambda m: '_' + m.group(1), name)
    return re.sub(r'_+', '_', name.lower()) if not re.search(r'(^|_)[A-Z]{2,}', name) else name


def defined(text):
    names = set()
    for line in strip(text).split('\n'):
        m = SIG.match(line)
        words = m.group(1).split() if m else []
        h = HEAD.match(line)
        if h:
            words.append(h.group(1))
        if words and words[0] not in KEYWORDS:
            names |= {w for w in words if PLAIN.match(w) and w not in KEYWORDS}
    return names


def imported(text, own):
    """names that a file imports from own crates, and from elsewhere"""
    mine, others = set(), set()
    for m in re.finditer(r'^(?:ghost |pub )*use ([^{};\n]+?)\.\{([^}]*)\}', text, re.M):
        names = {n.split(' as ')[0].strip() for n in m.group(2).split(',')}
        crate = re.match(r'Rattle\.(\w+)\.', m.group(1) + '.')
        (mine if crate and crate.group(1) in own else others).update(names)
    return mine, others


def main():
    own = {os.path.basename(p) for p in glob.glob('crates/*') if os.path.isdir(p)}
    texts = {f: open(f).read() for f in files('crates/*/specs/**/*.antt', 'crates/*/proofs/**/*.antt', 'crates/*/src/**/*.rt')}
    # proof files of single functions hold goals' names of the toolchain: what they define stays
    per_fn = {f for f in texts if re.search(r'/proofs/.+/(Proof|Answers|Invariants)\.antt$', f)}
    names, lemma = set(), set()
    for f, t in texts.items():
        if f.endswith('.antt') and f not in per_fn:
            d = defined(t)
            names |= d
            if '/proofs/' in f:
                lemma |= d
    new = {}
    for n in sorted(names):
        s = snake(n)
        if s != n:
            new[n] = s
    # names that fall together
    taken = {}
    for n in sorted(names, key=lambda n: (n in lemma, n)):
        s = new.get(n, n)
        if s in taken and taken[s] != n:
            new[n] = s + '_lem'
            print(f'fall together: {n} and {taken[s]}: {n} is now {new[n]}', file=sys.stderr)
        else:
            taken[s] = n
    if '--map' in sys.argv:
        for n in sorted(new):
            print(n, new[n])
        return
    def code(line, known):
        return TOKEN.sub(lambda m: known.get(m.group(0), m.group(0)), line)
    def comment(text):
        return re.sub(r'`[^`\n]*`', lambda m: code(m.group(0)[:-1].replace('`', '` ', 1), new).replace('` ', '`', 1) + '`', text)
    for f, t in texts.items():
        mine, others = imported(t, own)
        here = mine | (defined(t) if f.endswith('.antt') else set())
        plain = {k for k in new if re.fullmatch(r"[a-z0-9_']+", k)}
        known = {k: v for k, v in new.items() if (k not in others or k in mine) and (k not in plain or k in here)}
        mark = '--' if f.endswith('.antt') else '//'
        out = []
        for line in t.split('\n'):
            m = re.search(rf'(^|\s){mark}(\s|$)', line)
            at = m.start() if m else len(line)
            out.append(code(line[:at], known) + comment(line[at:]))
        put(f, t, '\n'.join(out))
    for f in files('crates/*/must-fail/**/*.edit'):
        t = open(f).read()
        put(f, t, '\n'.join(code(l, new) if re.match(r'(old|new): ', l) else comment(l) for l in t.split('\n')))
    for f in files('docs/**/*.md', '*.md', 'bindings/**/*.md', 'reference/*.md'):
        t = open(f).read()
        put(f, t, comment(t))


def put(path, old, text):
    if text != old:
        open(path, 'w').write(text)


main()
