#!/usr/bin/env python3
"""Lists the places in crates/*/src that a design pass looks at, point by point, and counts them.

    python3 tools/places.py 1        the places of point 1, a line each, and their number
    python3 tools/places.py          the numbers alone

What it finds is found by form, not by meaning: docs/DESIGN-PASS.md says what became of each place.
"""
import collections
import glob
import re
import sys


def files():
    for name in sorted(glob.glob('crates/*/src/*.rt')):
        with open(name, encoding='utf8') as source:
            yield name, source.read()


def lines():
    for name, text in files():
        for number, line in enumerate(text.split('\n'), 1):
            yield '%s:%d' % (name, number), line


def matching(pattern):
    found = re.compile(pattern)
    return ['%s: %s' % (at, line.strip()) for at, line in lines() if found.search(line.split('//')[0])]


def functions():
    """Each function: its file, name, parameters, clauses and body."""
    for name, text in files():
        for m in re.finditer(r'\bfn ([a-z_0-9]+)(?:<[^{}]*?>)?\(', text):
            depth, i = 1, m.end()
            while depth and i < len(text):
                depth += {'(': 1, ')': -1}.get(text[i], 0)
                i += 1
            parameters = text[m.end():i - 1]
            end = re.compile(r'\n *\{(?:\}|\n)| \{\n|;').search(text, i)
            if not end:
                continue
            clauses, j = text[i:end.start()], end.end()
            if text[end.end() - 1] == ';':
                continue
            depth, start = 1, j
            if end.group().rstrip().endswith('}'):
                depth = 0
            while depth and j < len(text):
                depth += {'{': 1, '}': -1}.get(text[j], 0)
                j += 1
            yield name, m.group(1), parameters, clauses, text[start:j - 1]


def shapes():
    """Enums of two variants, each of which holds at most one thing, as Option and Result have; faults are not among them."""
    found = []
    for name, text in files():
        for m in re.finditer(r'enum ([A-Z][A-Za-z]*)(?:<[^>]*>)? \{\n(.*?)\n\}', text, re.S):
            body = re.sub(r'//[^\n]*', '', m.group(2))
            variants = re.findall(r'^    ([A-Z][A-Za-z]*)( ?\([^)]*\)| \{[^}]*\})?', body, re.M)
            fields = [len(re.findall(r'[,:(]', v[1].rstrip(',) }'))) for v in variants]
            if len(variants) == 2 and any(v[1] for v in variants) and max(fields) <= 1 and not m.group(1).endswith('Fault'):
                found.append('%s: enum %s of %s' % (name, m.group(1), ' and '.join(v[0] for v in variants)))
    return found


def codes():
    found = shapes()
    found += matching(r'\b[a-z_]+: bool\b|let mut [a-z_]+ = (true|false)')
    found += matching(r'^\s*0x[0-9a-f]{2}( \| 0x[0-9a-f]{2})* =>|^\s*[0-9]+ => |unwrap_or\(0\)|NO_UNIT|= u16::MAX;')
    found += matching(r'Result<[^<>]*, \(|-> Option<\(u')
    found += matching(r'\.unwrap_or\(u(8|16)::MAX\)')
    return found


def twins():
    """Functions of one crate whose bodies are the same but for names, numbers and types."""
    kinds = collections.defaultdict(list)
    for name, function, parameters, clauses, body in functions():
        crate = name.split('/')[1]
        body = re.sub(r'//[^\n]*', '', body)
        shape = re.sub(r'b?"[^"]*"', 'S', body)
        shape = re.sub(r'\b(0x[0-9a-f]+?|[0-9][0-9_]*)(u8|u16|u32|usize)?\b', '0', shape)
        shape = re.sub(r'\b[A-Za-z_][A-Za-z_0-9]*(::[A-Za-z_]+)*\b(?<!\bmatch)(?<!\bif)(?<!\breturn)(?<!\blet)', 'N', shape)
        shape = re.sub(r'\s+', ' ', shape).strip()
        if len(shape) >= 14:
            kinds[(crate, shape)].append('%s: %s' % (name, function))
    return ['%s: %s' % (crate, ', '.join(f.split(': ')[1] for f in found))
            for (crate, _), found in sorted(kinds.items()) if len(found) > 1]


def loops():
    """Loops over a range of numbers, loops that go on by a test, and loops over a list that add up by hand."""
    found = matching(r'\bfor [a-z_]+ in [^{]*\.\.')
    found += matching(r"^\s*('[a-z]+: )?(while|loop)\b")
    for name, text in files():
        for m in re.finditer(r'\bfor [a-z_]+ in ([^{\n]*) \{\n((?:(?!\n    \}\n).)*)', text, re.S):
            if '..' not in m.group(1) and re.search(r'^\s*[a-z_]+ \+= ', m.group(2).split('\n    }')[0], re.M):
                found.append('%s: for over %s' % (name, m.group(1)))
    return found


def by_hand():
    found = matching(r'\bimpl(<[^>]*>)? (PartialEq|Eq|PartialOrd|Ord|Clone|Copy|Debug|Default|Hash)\b')
    found += ['%s: fn %s' % (name, function) for name, function, parameters, clauses, body in functions()
              if re.match(r'(self|&self)$', parameters.strip()) and re.search(r'^\s*(match \*?self|self as)', body)
              and re.search(r'-> (u8|u16|usize|Refusal|Answer|[A-Z]\w*Fault)\b', clauses)]
    found += ['%s: fn %s' % (name, function) for name, function, parameters, clauses, body in functions()
              if re.search(r'_text$|^(high|low|two_bytes|is_of|layer|summed|stop_of|layer)$', function)]
    found += matching(r'\bas (u16|u32|u64|usize|i32|i64)\b')
    return found


def facts():
    """Facts that stand in the contracts of three or more functions of a crate, and parameters that go together in four or more."""
    stands = collections.defaultdict(set)
    together = collections.defaultdict(set)
    for name, function, parameters, clauses, body in functions():
        crate = name.split('/')[1]
        for clause in re.findall(r'(?:requires|ensures)\*? *[a-z_0-9]* *\{ (.*) \}', clauses):
            clause = re.sub(r'\b[a-z_]+\.(old|new|now)\b', 'x', clause)
            for part in clause.split(' × '):
                part = re.sub(r'\b(self|result(\.\d)?|pool|x)\b', 'x', part.strip('() '))
                stands[(crate, part)].add(function)
        names = sorted(set(re.findall(r'\b([a-z_0-9]+): (?:&?[A-Za-z]|\[)', parameters)))
        for i, one in enumerate(names):
            for other in names[i + 1:]:
                together[(crate, one, other)].add(function)
    found = ['%s: %s (%d)' % (crate, part[:100], len(where)) for (crate, part), where in sorted(stands.items()) if len(where) >= 3]
    found += ['%s: %s, %s (%d)' % (crate, one, other, len(where))
              for (crate, one, other), where in sorted(together.items()) if len(where) >= 4]
    return found


def buffers():
    """Fixed arrays and lent memory in structs, and functions that are given a list and a place in it."""
    found = matching(r"^\s*(pub(\([a-z]+\))? )?[a-z_]+: (\[[A-Za-z][A-Za-z0-9]*; [A-Z0-9]+\]|&'a (mut )?\[[a-z0-9]+\]),$")
    found += ['%s: fn %s' % (name, function) for name, function, parameters, clauses, body in functions()
              if re.search(r'&(mut )?\[[a-zA-Z]', parameters) and re.search(r'\b(at|count|from|end|written|place|start): usize', parameters)]
    return found


def switches():
    """Functions that are told by a value which step to run, and function pointers."""
    found = ['%s: fn %s' % (name, function) for name, function, parameters, clauses, body in functions()
             if re.search(r': Asked\b', parameters)]
    found += matching(r': fn\([a-z]|dyn Fn')
    return found


def proofs():
    """Answers in proof files."""
    found = []
    for name in sorted(glob.glob('crates/*/proofs/**/Answers.antt', recursive=True)):
        with open(name, encoding='utf8') as source:
            found += ['%s: %s' % (name, m.group(1)) for m in re.finditer(r'^(?:abbrev )?pub ([^ :]+) :', source.read(), re.M)]
    return found


POINTS = {1: codes, 2: twins, 3: loops, 4: by_hand, 5: facts, 6: buffers, 7: switches, 8: proofs}

if __name__ == '__main__':
    if len(sys.argv) > 1:
        found = POINTS[int(sys.argv[1])]()
        print('\n'.join(found))
        print(len(found))
    else:
        for point, places in POINTS.items():
            print(point, len(places()))
