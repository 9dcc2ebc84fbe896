#!/usr/bin/env python3
"""Counts the places of docs/DESIGN-PASS.md in a tree's sources: design_places.py [--list] [TREE]

Each count is a line `point: what: number`; with --list the places follow it. It looks at crates/*/src/*.rt, and for point 8 at proofs/.
"""
import glob
import os
import re
import sys

NUMBERS = ('ACCEPTED|MEMORY_INVALID|DISK_SIZE_WRONG|KIND_UNKNOWN|TIME_OUT_OF_RANGE|ADDRESS_OUT_OF_RANGE|LENGTH_WRONG|TAG_WRONG|'
           'COUNT_EXHAUSTED|STATE_WRONG|LIMIT_EXCEEDED|SALT_UNCHANGED|LIST_SIZE_WRONG|PART_OUT_OF_RANGE|TOO_FEW_FREE')

# Point, what, and the expression that finds a place in a line.
LINES = [
    ('1', 'a number that stands for a refusal', r'machine::(%s)\b' % NUMBERS),
    ('1', 'a field that is a flag or a number beside a value', r'^\s*pub (taken|two|written|number|got): (bool|u32|isize),'),
    ('1', 'a variant for none or some', r'^\s*(Going|Right)\(\w+\),|^\s*(Wrong|Malformed|Unknown),'),
    ('1', 'a value that stands for none', r'[=!]= (layout::)?(versions_machine::)?(NONE|NO_BLOCK|MOST_NUMBERS)\b|got < 0|=> -1'),
    ('1', 'a kind by its number', r'\b(ENTRY_KIND|PAGE_KIND)\b|^\s*\d+ => Kind::'),
    ('3', 'a loop by hand', r'^\s*(while|loop)\b'),
    ('4', 'an arm that answers a constant', r'=> (true|false|\d+),'),
    ('4', 'a test that only answers', r'^\s*return (true|false);'),
    ('4', 'a field set to a name that is its own', r'^\s*(\w+): \1,'),
    ('4', 'a byte or a digit made or read by hand', r'% 256\b|\* 256\b|4294967296|% 10\b|9223372036854775808|:02x'),
    ('5', 'the memory has its size', r'length memory\.(now|old) ≡ memory_size present'),
    ('5', 'the state has its size', r'length state\.(now|old) ≡ state_size present'),
    ('5', 'another buffer has its size', r'length (page|out|proof|answer|content|salt|res|group|disk|new)\.(now|old) ≡ \w+'),
    ('5', 'the disk has the group', r'^    requires .*HasGroup present'),
    ('5', 'the memory has a count or a page', r'^    requires .*(HasCount|HasPage) present'),
    ('5', 'the box, the memory or the state is valid', r'^    requires .*(ValidBox present|\bvalid present|is_valid present)'),
    ('5', 'the buffer has space for a line', r'most_printed ≤ length'),
    ('6', 'a call with a place and a length', r'octets::(copy|fill|filled)\('),
]

# Point, what, and the expression that finds a place in a signature: its parameters on one line.
SIGNATURES = [
    ('5', 'memory and disk as parameters', r'\bmemory: .*\bdisk: '),
    ('5', 'block, time, content, proof and answer as parameters', r'block: .*time: .*content: .*proof: '),
    ('6', 'a buffer and a place in it as parameters', r'(out|s|dst): &mut \[u8\], (.*, )?at: usize'),
]


def sources(tree):
    return sorted(glob.glob(os.path.join(tree, 'crates/*/src/*.rt')))


def in_lines(tree, expression):
    for path in sources(tree):
        for number, line in enumerate(open(path, encoding='utf-8'), 1):
            if not line.lstrip().startswith('//') and re.search(expression, line):
                yield '%s:%d: %s' % (os.path.relpath(path, tree), number, line.strip())


def in_signatures(tree, expression):
    for path in sources(tree):
        text = open(path, encoding='utf-8').read()
        for found in re.finditer(r'\bfn (\w+)(?:<[^>]*>)?\(([^)]*)\)', text):
            if re.search(expression, ' '.join(found.group(2).split())):
                yield '%s: %s' % (os.path.relpath(path, tree), found.group(1))


def show(point, what, places, listed):
    places = list(places)
    print('%s: %s: %d' % (point, what, len(places)))
    if listed:
        for place in places:
            print('    ' + place)


def main(words):
    listed = '--list' in words
    trees = [word for word in words if word != '--list'] or ['.']
    tree = trees[0]
    for point, what, expression in LINES:
        show(point, what, in_lines(tree, expression), listed)
    for point, what, expression in SIGNATURES:
        show(point, what, in_signatures(tree, expression), listed)
    for name in ('Proof', 'Answers', 'Invariants'):
        found = sorted(glob.glob(os.path.join(tree, 'crates/*/proofs/**/%s.antt' % name), recursive=True))
        show('8', '%s.antt' % name, (os.path.relpath(path, tree) for path in found), listed)


if __name__ == '__main__':
    main(sys.argv[1:])
