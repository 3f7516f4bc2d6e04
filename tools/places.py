#!/usr/bin/env python3
"""Lists the places of the code that docs/DESIGN-PASS.md counts, point by point.

    python3 tools/places.py            of the sources as they stand
    python3 tools/places.py COMMIT     of those at a commit

What it prints are candidates: each was read, and the page says what it is. Tests are left out
(crates trials and session_trials).
"""
import collections
import re
import subprocess
import sys

TESTS = ('crates/trials/', 'crates/session_trials/')


def sources(commit):
    """The .rt files by name, each as its lines."""
    if commit:
        names = subprocess.run(['git', 'ls-tree', '-r', '--name-only', commit, 'crates'],
                               capture_output=True, text=True, check=True).stdout.split()
        read = lambda n: subprocess.run(['git', 'show', f'{commit}:{n}'],
                                        capture_output=True, text=True, check=True).stdout
    else:
        names = subprocess.run(['git', 'ls-files', 'crates'],
                               capture_output=True, text=True, check=True).stdout.split()
        read = lambda n: open(n, encoding='utf-8').read()
    wanted = [n for n in names if '/src/' in n and n.endswith('.rt') and not n.startswith(TESTS)]
    return {n: read(n).split('\n') for n in sorted(wanted)}


def lines(files, pattern):
    """The lines that a pattern fits, comments and imports left out."""
    return [f'{n}:{i}: {line.strip()}' for n, text in files.items() for i, line in enumerate(text, 1)
            if re.search(pattern, line) and not re.match(r'\s*(//|use |ghost use )', line)]


def functions(files):
    """Each function: its file, its line, its name, its parameters, its clauses and its body."""
    found = []
    for name, text in files.items():
        whole = '\n'.join(text)
        for m in re.finditer(r'\bfn ([a-z_0-9]+)(<[^(]*>)?\(', whole):
            depth, at = 1, m.end()
            while depth and at < len(whole):
                depth += {'(': 1, ')': -1}.get(whole[at], 0)
                at += 1
            params = [' '.join(p.split()) for p in re.split(r',\s*(?![^<(\[]*[>)\]])', whole[m.end():at - 1]) if p.strip()]
            start = whole.find('\n{' if whole[m.start() - 1] != ' ' or not whole[:m.start()].split('\n')[-1].startswith(' ') else '\n    {', at)
            head = whole[at:start if start > 0 else at]
            clauses = [' '.join(c.split()) for c in re.findall(r'(?:requires|ensures)\*?\s*[a-z_]*\s*\{(.*)\}', head)]
            found.append((name, whole[:m.start()].count('\n') + 1, m.group(1), params, clauses))
    return found


def show(title, found):
    print(f'-- {title}: {len(found)}')
    for line in found:
        print('   ' + line)


def main():
    files = sources(sys.argv[1] if len(sys.argv) > 1 else None)
    made = functions(files)
    print('== 1. Option, Result, enums')
    show('enums of the repository', lines(files, r'^(pub(\(crate\))? )?enum '))
    show('flags', lines(files, r'\b[a-z_]+: bool\b'))
    show('numbers for kinds and refusals', lines(files, r'\b(kind_number|event_width|letter|outcome)\([a-z]*(: u8)?\)|\bREFUSED: '))
    show('arms that pass an Option or a Result on', lines(files, r'^\s*(Some|Ok)\(.*\) => '))
    show('let else that returns what `?` would', [f for f in lines(files, r'\} else \{$|= .* else \{$') if re.search(r'let (Some|Ok)', f)])
    print('== 2. twins')
    names = collections.Counter(f[2] for f in made)
    show('names of functions in more than one file', sorted(f'{n} ({c})' for n, c in names.items() if c > 1))
    print('== 3. loops')
    show('while and loop', lines(files, r'^\s*(while |loop \{)'))
    show('for over a range', lines(files, r'^\s*for .* in .*\.\.'))
    show('for with enumerate', lines(files, r'^\s*for .*enumerate\(\)'))
    show('other for', [f for f in lines(files, r'^\s*for ') if 'enumerate()' not in f and '..' not in f.split(' in ')[-1]])
    print('== 4. by hand')
    show('impl From and TryFrom', lines(files, r'^impl.* (From|TryFrom)<'))
    show('functions that compare, convert or print', [f'{n}:{i}: {f}' for n, i, f, _, _ in made if re.search(
        r'^(compare.*|then|number|refusal|source_word|word_text|letter|outcome|hex_digit|put_digits|put_number|decimal_length|write_decimal|read_digits|read_numeral|two_bytes|four_bytes|lay_.*|copy_.*|insert_place|file_kind|sign|goes_on|is_digit)$', f)])
    show('numbers put together from bytes', lines(files, r'\* 256|from_be_bytes'))
    print('== 5. what travels together')
    pairs = collections.defaultdict(list)
    for n, i, f, params, _ in made:
        plain = [re.sub(r"'[a-z]+ ", '', p) for p in params if ':' in p]
        for a in range(len(plain)):
            for b in range(a + 1, len(plain)):
                pairs[tuple(sorted((plain[a], plain[b])))].append(f)
    show('pairs of parameters in three functions or more', sorted(f'{a}; {b}: {" ".join(fs)}' for (a, b), fs in pairs.items() if len(fs) > 2))
    said = collections.defaultdict(list)
    for n, i, f, _, clauses in made:
        for c in set(clauses):
            said[c].append(f)
    show('clauses in three functions or more', sorted(f'{c}: {" ".join(fs)}' for c, fs in said.items() if len(fs) > 2))
    show('joined clauses', lines(files, r'(requires|ensures).*\) × \('))
    print('== 6. buffers, parallel arrays, arenas')
    show('rows of fixed length', lines(files, r'\[[^\]]+; [^\]]+\]'))
    show('places kept by hand', lines(files, r'\b(start|count|length|depth|at|past|place|leaves): usize'))
    print('== 7. switches')
    show('parameters that choose a step', [f'{n}:{i}: {f}({p})' for n, i, f, ps, _ in made for p in ps if p.endswith(': bool')])
    show('function pointers and dyn', lines(files, r'\bdyn |: fn\('))


main()
