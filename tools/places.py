#!/usr/bin/env python3
"""Lists, point by point, the places that docs/DESIGN-PASS.md counts.

Run from the repository's root: python3 tools/places.py [POINT ..] [--in FOLDER]
FOLDER is the `crates` of another state, as `git archive COMMIT crates | tar -x -C OLD` makes it. Each line is a place to
look at, not yet a verdict on it.
"""
import collections
import difflib
import glob
import re
import sys


def sources(folder):
    for path in sorted(glob.glob(folder + '/*/src/**/*.rt', recursive=True)):
        with open(path) as file:
            yield path, file.read().split('\n')


def functions(folder):
    """Path, name, signature, clauses and body lines of each function; whether it is a test."""
    head = re.compile(r'(\s*)(?:pub(?:\(crate\))? )?(?:extern "C" )?fn (\w+)')
    for path, lines in sources(folder):
        i = 0
        while i < len(lines):
            match = head.match(lines[i])
            if not match:
                i += 1
                continue
            indent, name, end = match.group(1), match.group(2), i
            ends = re.compile(indent + r'(\}|.*\{\}|    ensures.*;|fn .*;)$')
            while not ends.match(lines[end]):
                end += 1
            text = lines[i:end + 1]
            clauses = [line for line in text if re.match(r'\s*(requires|ensures)', line)]
            code = [line for line in text if line not in clauses and not line.strip().startswith('//')]
            signature = ' '.join(code).split('{')[0]
            test = i > 0 and '#[test]' in lines[i - 1]
            yield path, name, signature, clauses, code, test
            i = end + 1


def grep(folder, *patterns):
    for path, lines in sources(folder):
        for number, line in enumerate(lines, 1):
            if any(re.search(pattern, line) for pattern in patterns):
                print(f'{path}:{number}: {line.strip()}')


def point1(folder):
    print('enums, with their variants')
    for path, lines in sources(folder):
        text = '\n'.join(lines)
        for name, body in re.findall(r'enum (\w+)(?:<[^>]*>)? \{(.*?)\n\}', text, re.S):
            variants = re.findall(r'^    (\w+[^\n]*?),?$', re.sub(r'//[^\n]*', '', body), re.M)
            print(f'{path}: {name}: ' + '; '.join(v.strip() for v in variants))
    print('numbers that stand for none, or for a kind')
    grep(folder, r'//.*\b0 (for|stands|if|where)\b', r'//.*all 0 for', r'=> 0,$', r'\(0, 0\)')


def point2(folder):
    print('pairs of functions whose bodies are alike, tests left out')
    found = [(path.split('/')[-1], name, re.findall(r'\w+|[^\s\w]', ' '.join(code[1:])))
             for path, name, _, _, code, test in functions(folder) if not test]
    pairs = []
    for a in range(len(found)):
        for b in range(a + 1, len(found)):
            one, other = found[a], found[b]
            if min(len(one[2]), len(other[2])) < 14:
                continue
            ratio = difflib.SequenceMatcher(None, one[2], other[2], autojunk=False).ratio()
            if ratio >= 0.72:
                pairs.append((ratio, one, other))
    for ratio, one, other in sorted(pairs, reverse=True, key=lambda pair: pair[0]):
        print(f'{ratio:.2f} {one[0]}:{one[1]} {other[0]}:{other[1]}')


def point3(folder):
    print('loops over a range or under a test, and counters')
    grep(folder, r'^\s*(\'\w+: )?(while|loop)\b', r'\bfor \w+ in [\w.()]+\.\.', r'\+= 1;', r'= \w+\.saturating_add\(')


def point4(folder):
    print('impls and functions that convert, compare, print')
    grep(folder, r'^\s*impl(<[^>]*>)? [\w<>\' ]+ for ',
         r'^\s*(pub(\(crate\))? )?fn (number|line|cause|precedes|eq|cmp|fmt|from|digits|put_\w+|value_of|key|told)\b')


def point5(folder):
    facts, parameters = collections.defaultdict(set), collections.defaultdict(set)
    for path, name, signature, clauses, _, _ in functions(folder):
        crate = re.search(r'/(\w+)/src/', path).group(1)
        for clause in clauses:
            match = re.match(r'\s*(?:requires|ensures)\*? ?\w* ?\{ (.*) \}', clause)
            for part in (match.group(1).split(' × ') if match else []):
                facts[crate, part.strip('() ')].add(name)
        names = re.findall(r'[(,]\s*(?:mut )?(\w+):', signature)
        for a in range(len(names)):
            for b in range(a + 1, len(names)):
                parameters[crate, names[a] + ', ' + names[b]].add(name)
    for title, found in [('facts in three or more contracts', facts), ('parameters that travel together', parameters)]:
        print(title)
        for (crate, what), where in sorted(found.items()):
            if len(where) >= 3:
                print(f'{crate}: {what}: {len(where)}: ' + ', '.join(sorted(where)))


def point6(folder):
    print('arrays in structs, and buffers of a fixed length')
    grep(folder, r'^    \w+: \[[^\]]+; \w+\]', r'^    \w+: &\'a mut \[', r'let mut \w+ = \[[^;\]]+; \w+\];')


def point7(folder):
    print('matches in which each of three or more arms calls a function')
    for path, name, _, _, code, _ in functions(folder):
        arms = [line for line in code if '=>' in line]
        calls = [line for line in arms if re.search(r'=> (\{|return )?.*[\w)]\(', line)]
        if len(arms) >= 3 and len(calls) == len(arms):
            print(f'{path}: {name}')


def point8(folder):
    print('answers by hand, and their lines, by crate')
    answers, lines = collections.Counter(), collections.Counter()
    for path in glob.glob(folder + '/*/proofs/**/Answers.antt', recursive=True):
        crate = re.search(r'/(\w+)/proofs/', path).group(1)
        with open(path) as file:
            text = file.read()
        answers[crate] += len(re.findall(r'^pub \S+ : goal\.', text, re.M))
        lines[crate] += text.count('\n')
    for crate in sorted(answers):
        print(f'{crate}: {answers[crate]} answers, {lines[crate]} lines')
    print(f'all: {sum(answers.values())} answers, {sum(lines.values())} lines')


def main():
    words = sys.argv[1:]
    folder = 'crates'
    if '--in' in words:
        at = words.index('--in')
        folder = words[at + 1]
        del words[at:at + 2]
    points = [point1, point2, point3, point4, point5, point6, point7, point8]
    for number, point in enumerate(points, 1):
        if not words or str(number) in words:
            print(f'== {number}')
            point(folder)


main()
