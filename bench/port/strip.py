#!/usr/bin/env python3
"""Translates the crates that plan_compact stands on from Rattle to modules of plain Rust: clauses, ghosts and tests go,
lines keep their numbers. Crates for which shim/ has a file are taken from there. build.sh calls it.

  bench/port/strip.py CLONE FOLDER    into FOLDER/src
"""
import os
import re
import sys

HERE = os.path.dirname(os.path.abspath(__file__))
TOKEN = re.compile(
    r'''//[^\n]*|/\*.*?\*/|b?r"[^"]*"|b?"(?:\\.|[^"\\])*"|b?'(?:\\.[^']*|[^'\\])'|'''
    r'''[A-Za-z_][A-Za-z_0-9]*|\d[\w.]*|\s+|::|.''', re.S)
SKIP_FILES = {('plan_compact', 'compact')} | {('sat_sweep', name) for name in (
    'decided', 'differ', 'literals', 'outcome', 'some_difference', 'structure')}
CLAUSES = {'requires', 'ensures', 'decreases'}


def tokens(text):
    return TOKEN.findall(text)


def lines(parts):
    return '\n' * sum(p.count('\n') for p in parts)


def blank(t):
    return t.isspace() or t.startswith('//') or t.startswith('/*')


def after(ts, i):
    """The next index from i on that is no space or comment."""
    while i < len(ts) and blank(ts[i]):
        i += 1
    return i


def close(ts, i, opening, closing):
    """The index past the bracket that closes the one at i."""
    depth = 0
    while i < len(ts):
        if ts[i] == opening:
            depth += 1
        elif ts[i] == closing:
            depth -= 1
            if depth == 0:
                return i + 1
        i += 1
    raise SystemExit('unbalanced %s' % opening)


def ghost_end(ts, i):
    """Past a ghost item or field, or `ghost { .. }`, that begins at i."""
    depth = 0
    while i < len(ts):
        t = ts[i]
        if t in '{([':
            depth += 1
        elif t in '})]':
            if depth == 0:
                return i
            depth -= 1
        elif t in (';', ',') and depth == 0:
            return i + 1
        i += 1
    return i


def strip(text, crate, crates, skipped):
    ts = tokens(text)
    out = []
    i = 0
    n = len(ts)
    drop = lambda j: out.append(lines(ts[i:j]))

    def pop_pub():
        k = len(out) - 1
        while k >= 0 and out[k].isspace():
            k -= 1
        if k >= 0 and out[k] == 'pub':
            out[k] = ''

    while i < n:
        t = ts[i]
        if blank(t):
            out.append(t if t.isspace() else lines([t]))
            i += 1
            continue
        if t == 'ghost' and re.match(r'[A-Za-z_{]', ts[after(ts, i + 1)]):
            pop_pub()
            k = after(ts, i + 1)
            j = close(ts, k, '{', '}') if ts[k] == '{' else ghost_end(ts, i)
            drop(j)
            i = j
            continue
        if t in CLAUSES or (t == 'invariant' and ts[after(ts, i + 1)] == '{'):
            j = after(ts, i + 1)
            while ts[j] == '*' or re.match(r'[A-Za-z_]', ts[j]):
                j = after(ts, j + 1)
            if ts[j] == '{':
                j = close(ts, j, '{', '}')
                drop(j)
                i = j
                continue
        if t == '#':
            k = after(ts, i + 1)
            if ts[k] == '!':
                k = after(ts, k + 1)
            if ts[k] == '[':
                j = close(ts, k, '[', ']')
                name = ts[after(ts, k + 1)]
                if name in ('tactic', 'cycle'):
                    drop(j)
                    i = j
                    continue
                if name == 'derive':
                    names = [x for x in ts[k + 1:j] if re.match(r'[A-Z]', x) and x != 'Drop']
                    out.append(('#[derive(%s)]' % ', '.join(names) if names else '') + lines(ts[i:j]))
                    i = j
                    continue
                if name == 'cfg' and 'test' in ts[k:j]:
                    while ts[j] not in ('{', ';'):
                        j += 1
                    j = j + 1 if ts[j] == ';' else close(ts, j, '{', '}')
                    drop(j)
                    i = j
                    continue
        if t == 'impl':
            k = after(ts, i + 1)
            if ts[k] == '<':
                k = after(ts, close(ts, k, '<', '>'))
            if ts[k] == 'Model':
                while ts[k] != '{':
                    k += 1
                j = close(ts, k, '{', '}')
                drop(j)
                i = j
                continue
        if t == 'const' and ts[after(ts, i + 1)] == '_':
            j = i
            while ts[j] != ';':
                j += 1
            if 'prove' in ts[i:j]:
                drop(j + 1)
                i = j + 1
                continue
        if t == 'prove':
            k = after(ts, i + 1)
            if ts[k] == '!':
                j = close(ts, after(ts, k + 1), '(', ')')
                out.append('()' + lines(ts[i:j]))
                i = j
                continue
        if t == 'mod' and ts[after(ts, i + 1)] in skipped:
            j = after(ts, i + 1)
            while ts[j] != ';':
                j += 1
            pop_pub()
            drop(j + 1)
            i = j + 1
            continue
        if t == 'use':
            j = i
            while ts[j] != ';':
                j += 1
            said = ''.join(ts[i:j + 1])
            first = ts[after(ts, i + 1)]
            if re.match(r'use std::marker::Model;', said) or first in skipped:
                pop_pub()
                drop(j + 1)
                i = j + 1
                continue
            if said.startswith('use std::alloc'):
                out.append('use crate::shim' + said[len('use std::alloc'):])
                i = j + 1
                continue
        if t == 'vec' and ts[after(ts, i + 1)] == '!':
            out.append('crate::rvec')
            i += 1
            continue
        if t == '.' and ''.join(ts[i:i + 5]) == '.collect(alloc)':
            out.append('.collect_in(alloc)')
            i += 5
            continue
        before = next((x for x in reversed(out) if x and not x.isspace()), '')
        if t == 'crate' and i + 1 < n and ts[i + 1] == '::' and before != '::':
            out.append('crate::' + crate)
        elif t in crates and i + 1 < n and ts[i + 1] == '::' and before not in ('::', '.'):
            out.append('crate::' + t)
        else:
            out.append(t)
        i += 1
    return ''.join(out)


def note_searches(text):
    """In searches.rt: each call `crate::NAME::function(..)` is timed and noted."""
    out = []
    at = 0
    for found in re.finditer(r'\bcrate::(\w+)::(\w+)\(', text):
        if found.group(1) == 'plan_compact' or found.start() < at:
            continue
        depth, j = 0, found.end() - 1
        while True:
            depth += {'(': 1, ')': -1}.get(text[j], 0)
            j += 1
            if depth == 0:
                break
        name = found.group(1) if found.group(2) == 'search' else found.group(1) + '::' + found.group(2)
        out += [text[at:found.start()], 'crate::shim::noted("%s", || ' % name, text[found.start():j], ')']
        at = j
    return ''.join(out) + text[at:]


def write(path, text):
    os.makedirs(os.path.dirname(path), exist_ok=True)
    if os.path.exists(path) and open(path).read() == text:
        return
    open(path, 'w').write(text)


def main():
    clone, gen = sys.argv[1:3]
    deps = {}
    for line in open(os.path.join(clone, 'crates.txt')):
        if ':' in line and not line.startswith('#'):
            name, rest = line.split(':', 1)
            deps[name.strip().split()[0]] = rest.split()
    shims = {f[:-3] for f in os.listdir(os.path.join(HERE, 'shim'))}
    wanted, todo = [], ['plan_compact']
    while todo:
        name = todo.pop()
        if name in wanted or name not in deps or name == 'decide':
            continue
        if name in shims:
            wanted.append(name)
            continue
        wanted.append(name)
        todo += deps[name]
    # layout_make and the like stand on crates that only their real sources need.
    wanted = sorted(w for w in wanted)
    src = os.path.join(gen, 'src')
    os.makedirs(src, exist_ok=True)
    made = set()
    for crate in wanted:
        if crate in shims:
            continue
        root = os.path.join(clone, 'crates', crate, 'src')
        for folder, _, files in os.walk(root):
            for f in files:
                stem = os.path.relpath(os.path.join(folder, f), root)[:-3]
                if not f.endswith('.rt') or (crate, stem) in SKIP_FILES:
                    continue
                text = open(os.path.join(folder, f)).read()
                skipped = {s for c, s in SKIP_FILES if c == crate}
                text = strip(text, crate, set(wanted), skipped)
                if crate == 'plan_compact' and stem == 'lib':
                    text += '\npub(crate) use search::{all_graphs, found_chip};\n'
                if crate == 'plan_compact' and stem == 'searches':
                    text = note_searches(text)
                path = os.path.join(src, crate, 'mod.rs' if stem == 'lib' else stem + '.rs')
                write(path, '#[allow(unused_imports)] use crate::shim::*; ' + text)
                made.add(path)
    for f in os.listdir(os.path.join(HERE, 'shim')):
        path = os.path.join(src, f)
        text = open(os.path.join(HERE, 'shim', f)).read()
        if f == 'main.rs':
            text = '#![allow(warnings)]\n#[macro_use] mod shim;\nmod sorts;\n' + ''.join(
                'mod %s;\n' % w for w in wanted) + text
        write(path, text)
        made.add(path)
    for folder, _, files in os.walk(src):
        for f in files:
            if os.path.join(folder, f) not in made:
                os.remove(os.path.join(folder, f))
    checks = 'true' if os.environ.get('PORT_CHECKS') else 'false'
    write(os.path.join(gen, 'Cargo.toml'), '''[package]
name = "aqport"
version = "0.1.0"
edition = "2024"
[profile.release]
opt-level = 3
overflow-checks = %s
debug-assertions = false
panic = "abort"
debug = 1
codegen-units = 4
[workspace]
''' % checks)


main()
