#!/usr/bin/env python3
"""Counts the places of docs/DESIGN-PASS.md's points in crates/*/src: forms of the older language that today's may say plainer.

usage: tools/places.py [--list] [FOLDER]   FOLDER is the top of a checkout, the current one if none is given
"""
import re
import sys
from collections import defaultdict
from pathlib import Path

TYPES = r'\b(?:u8|u16|u32|u64|usize|bool)\b'
BY_HAND = (r'bit|widened|whole|larger|capped_sum|clear|insert|same_\w+|copy_\w+|\w*is_digit|label_matches|starts_with|from_le_bytes|'
           r'(?:read|write)_[lb]e_\w+|write_bytes|one_more|shown_tiles|table_size|room_of|capped|how_many|lowest_in|is_pair|lacks_\w+|'
           r'(?:words|bytes|numbers|sizes)_(?:to|from|in)|word_at|byte_at|is_outside|digit')


def functions(text):
    """Name, line, parameters, clauses and body of each function of a file."""
    for m in re.finditer(r'^( *)(?:pub(?:\(crate\))? )?fn (\w+)', text, re.M):
        start = m.end()
        depth, i = 0, start
        while text[i] != '{' or depth or text[:i].rstrip().endswith(('ensures', 'requires')) or re.search(
                r'(?:requires|ensures)(?: \w+)? $', text[max(0, i - 60):i]):
            if text[i] in '([{':
                depth += 1
            elif text[i] in ')]}':
                depth -= 1
            elif text[i] == ';' and not depth:
                break
            i += 1
        head = text[start:i]
        end = text.find('\n' + m.group(1) + '}', i)
        body = text[i:end + 2 + len(m.group(1))] if text[i] == '{' else ''
        params, d = '', 0
        for ch in head[head.find('('):] if '(' in head else '':
            d += (ch == '(') - (ch == ')')
            params += ch
            if not d:
                break
        clauses = re.findall(r'requires(?: \w+)? (\{.*?\})\s*(?=requires|ensures|$)', head + '\n', re.S)
        yield m.group(2), text.count('\n', 0, m.start()) + 1, params, clauses, body


def shape(params, body):
    """The tokens of a function with names in the order of their appearance, and no types or numbers."""
    names, out = {}, []
    for tok in re.findall(r"[A-Za-z_]\w*|\d[\w]*|b'.'|[^\s\w]", re.sub(r'//.*', '', params + body)):
        if re.fullmatch(TYPES, tok):
            tok = 'T'
        elif re.fullmatch(r"\d\w*|b'.'", tok):
            tok = '0'
        elif re.fullmatch(r'[A-Za-z_]\w*', tok) and tok not in KEYWORDS:
            tok = names.setdefault(tok, f'n{len(names)}')
        out.append(tok)
    return tuple(out)


KEYWORDS = {'let', 'mut', 'if', 'else', 'while', 'loop', 'for', 'in', 'match', 'return', 'as', 'self', 'Self', 'break', 'continue', 'true', 'false'}


def places(top):
    found = defaultdict(list)
    params_of, clauses_of, shapes = {}, defaultdict(list), defaultdict(list)
    for path in sorted(Path(top, 'crates').glob('*/src/*.rt')):
        if path.name == 'tests.rt':
            continue
        text = path.read_text()
        where = '/'.join(path.parts[-3:])
        lines = text.split('\n')
        for k, line in enumerate(lines, 1):
            at = f'{where}:{k}: {line.strip()[:90]}'
            if re.match(r'\s*(?:pub(?:\(crate\))? )?enum ', line):
                found['1 enums'].append(at)
            if re.match(r'\s*(?:pub )?\w+: bool,', line) and 'struct' in ''.join(lines[max(0, k - 12):k]):
                found['1 flags in a struct'].append(at)
            if re.search(r'=> (?:\w+(?:::\w+)*\(|return \w+(?:::\w+)*\()?(?:[1-9]|[12]\d|3[0-3])\b(?!\d)', line):
                found['1 numbers of refusals and kinds'].append(at)
            if re.match(r"\s*(?:'\w+: )?(?:while|loop)\b", line):
                found['3 loops by hand'].append(at)
            if re.match(r'\s*\d+ => ', line):
                found['7 steps by number'].append(at)
            if not re.match(r'\s*(?:pub(?:\(crate\))? )?fn |\s*(?:pub )?use |\s*//|\s*(?:requires|ensures|ghost)', line):
                if re.search(r'\b(?:bit|widened|whole|larger|capped_sum|clear)\(', line):
                    found['4 calls of steps that the library has'].append(at)
        for name, line, params, clauses, body in functions(text):
            at = f'{where}:{line}: {name}'
            params_of[at] = re.findall(r'(\w+): ([^,()]+)', params)
            for c in clauses:
                for fact in re.split(r' × ', re.sub(r'\s+', ' ', c.strip('{} '))):
                    clauses_of[fact.strip('() ')].append(at)
            if len(shape(params, body)) >= 25:
                shapes[shape(params, body)].append(at)
            if re.fullmatch(BY_HAND, name):
                found['4 written by hand'].append(at)
            if re.search(r'\[[^\]]*\],\s*(?:count|n|size|blocks|place): (?:usize|u32)', params.replace('\n', ' ')):
                found['6 a buffer and its length'].append(at)
    for group in shapes.values():
        if len(group) > 1:
            found['2 twins'] += [f'{g}  ~ {group[0].split(": ")[-1]}' for g in group[1:]]
    for fact, at in clauses_of.items():
        if len(set(at)) >= 3:
            found['5 facts in three contracts or more'].append(f'{len(set(at))} times: {fact[:110]}')
    groups = defaultdict(set)
    for at, ps in params_of.items():
        names = frozenset(p for p in ps if p[0] != 'self')
        for other, qs in params_of.items():
            common = names & frozenset(qs)
            if at.split('/')[0] == other.split('/')[0] and at != other and len(common) >= 3 and any('[' in p[1] for p in common):
                groups[at.split('/')[0], common] |= {at, other}
    whole = {(crate, ps): {at for at, qs in params_of.items() if at.split('/')[0] == crate and ps <= frozenset(qs)} for crate, ps in groups}
    for (crate, ps), at in sorted(whole.items(), key=lambda g: (g[0][0], sorted(g[0][1]))):
        if len(at) >= 3 and not any(crate == c and ps < qs and len(more) >= len(at) for (c, qs), more in whole.items()):
            found['5 parameters that travel together'].append(f'{crate}: {", ".join(sorted(p[0] for p in ps))}, {len(at)} times')
    return found


def main():
    args = [a for a in sys.argv[1:] if a != '--list']
    found = places(args[0] if args else '.')
    for point in sorted(found):
        print(f'{point}: {len(found[point])}')
        if '--list' in sys.argv:
            print(*('    ' + p for p in found[point]), sep='\n')


main()
