#!/usr/bin/env python3
"""Counts the places of older forms in crates/*/src (docs/DESIGN-PASS.md), a point a paragraph: python3 tools/forms.py [FOLDER]"""
import re
import sys
from collections import defaultdict
from difflib import SequenceMatcher
from pathlib import Path

root = Path(sys.argv[1] if len(sys.argv) > 1 else '.')
files = {}
for path in sorted(root.glob('crates/*/src/**/*.rt')):
    text = path.read_text().split('#[cfg(test)]')[0]
    files[path.relative_to(root / 'crates')] = text


def code(text):
    """without comments"""
    return re.sub(r'//[^\n]*', '', text)


def line_of(text, offset):
    return text.count('\n', 0, offset) + 1


def find(pattern, flags=re.M):
    places = []
    for path, text in files.items():
        bare = re.sub(r'//[^\n]*', lambda m: ' ' * len(m.group()), text)
        for m in re.finditer(pattern, bare, flags):
            places.append((f'{path}:{line_of(text, m.start())}', ' '.join(m.group().split())[:90]))
    return places


def functions():
    """(place, signature with its clauses, body) of each function"""
    for path, text in files.items():
        bare = re.sub(r'//[^\n]*', lambda m: ' ' * len(m.group()), text)
        for m in re.finditer(r'^( *)(?:pub(?:\(crate\))? )?(?:const )?(?:extern "C" )?fn (\w+)', bare, re.M):
            indent = m.group(1)
            end = re.search(r'^' + indent + r'\}$', bare[m.start():], re.M)
            if not end:
                continue
            whole = bare[m.start():m.start() + end.end()]
            cut = re.search(r'^' + indent + r'\{$|\{$', whole, re.M)
            yield f'{path}:{line_of(text, m.start())}', m.group(2), whole[:cut.start()], whole[cut.start():]


def show(title, places):
    print(f'  {title}: {len(places)}')
    for place, what in places:
        print(f'    {place}  {what}')
    return len(places)


def enums_like_option():
    places = []
    for path, text in files.items():
        bare = re.sub(r'//[^\n]*', lambda m: ' ' * len(m.group()), text)
        for m in re.finditer(r'^(?:pub(?:\(crate\))? )?enum (\w+)(?:<[^>]*>)? \{\n(.*?)^\}', bare, re.M | re.S):
            variants = re.findall(r'^    (\w+)(.?)', m.group(2), re.M)
            none = [v for v, after in variants if v in ('Refused', 'Absent', 'Bad', 'Unknown', 'Unnamed', 'Neither', 'Nothing', 'None')]
            if none and len(variants) > 1:
                places.append((f'{path}:{line_of(text, m.start())}', f'{m.group(1)} {{{", ".join(v for v, _ in variants)}}}'))
    return places


def point1():
    n = show('own enums with a variant for nothing or for a refusal', enums_like_option())
    n += show('numbers that stand for nothing', find(r'^(?:pub(?:\(crate\))? )?const NO\w+.*$'))
    n += show('refusals by number', find(r'\b(?:refused|refused_element|refused_item|fault|stopped)\((?:at, |count, |stop, )?\d+[^)]*\)'))
    n += show('tests of an answer\'s number', find(r'\.number [!=]= 0'))
    n += show('a flag and values in parameters that are written', find(r'^    (?!.*\[)\w+: &mut (?:u8|u32|u64|usize|bool),'))
    n += show('a flag with a value beside it', find(r'^    pub (?:present|number): (?:bool|u8),'))
    return n


def shape(body):
    body = re.sub(r'"[^"]*"', 'S', body)
    body = re.sub(r'([{}()\[\],;.&!?:<>=+*/%|-])', r' \1 ', body)
    body = re.sub(r'\b\d\w*\b', 'N', body)
    body = re.sub(r'\b(?!fn|let|mut|if|else|while|loop|for|in|match|return|as|bool|true|false|Ok|Err|Some|None)[A-Za-z_]\w*\b', 'x', body)
    return ' '.join(body.split())


def point2():
    """pairs of functions, C's own aside, whose bodies are nine tenths the same when each name is x, each number N"""
    all_shapes = [(place, name, shape(body).split()) for place, name, head, body in functions()
                  if 'extern "C"' not in head and len(shape(body).split()) >= 24]
    twins = []
    for i, (place, name, left) in enumerate(all_shapes):
        for other, other_name, right in all_shapes[i + 1:]:
            if min(len(left), len(right)) * 1.3 >= max(len(left), len(right)) and SequenceMatcher(None, left, right, False).ratio() >= 0.9:
                twins.append((place, f'{name}, {other_name} ({other})'))
    return show('pairs of functions of nearly one shape', twins)


def point3():
    places = []
    for place, name, head, body in functions():
        for m in re.finditer(r'while ([^{]*)\{', body):
            for counter in re.findall(r'\b([a-z_]+)\b', m.group(1)):
                if re.search(r'\b' + counter + r' (?:\+=|= ' + counter + r' \+|= \w+ \+ 1)', body):
                    places.append((place, f'{name}: while {m.group(1).strip()}'))
                    break
    return show('while loops that count an index', places)


BY_HAND = (r'lesser|next_part|same|same_words|wide|wide16|word|big_endian|big32|number_bytes|word_byte|word_bytes|rotr|digit|digit_of|put_decimal|put_decimal_then|'
           r'put_hex|put_byte|answer_words|verdict_code|which_of|flag_of|yes_or_no|print_verdict|print_answer|is_there|first|signature_item')


def point4():
    return show('functions that compare, convert, copy or print by hand',
                [(place, name) for place, name, head, body in functions() if re.fullmatch(BY_HAND, name)])


def point5():
    facts = defaultdict(list)
    for place, name, head, body in functions():
        m = re.search(r'requires \{(.*?)\}\s*(?:ensures|$)', head, re.S)
        if m:
            for fact in m.group(1).split('×'):
                fact = ' '.join(fact.split()).strip('() ')
                if '→' not in fact:
                    facts[fact].append((place, name))
    n = show('facts in the requires of three functions or more',
             [(places[0][0], f'{fact}: {", ".join(name for _, name in places)}') for fact, places in facts.items() if len(places) >= 3])
    groups = [(place, name) for place, name, head, body in functions() if re.search(r'\bstop: usize', head) and re.search(r'\b(?:at|from|start): usize', head)]
    return n + show('functions with the parts of an extent in parameters', groups)


def point6():
    places = []
    for place, name, head, body in functions():
        params = head.split('->')[0]
        if re.search(r'\[u8(?:; \d+)?\]', params) and re.search(r'\b(?:count|filled|end|n|to|at|onto): usize', params):
            places.append((place, name))
    return show('functions with bytes and a length or an offset beside them', places)


def point7():
    return show('functions that choose a step by two flags or more',
                [(place, name) for place, name, head, body in functions() if len(re.findall(r'\w+: bool', head)) >= 2])


for number, point in enumerate((point1, point2, point3, point4, point5, point6, point7), 1):
    print(f'Point {number}')
    print(f'  in all: {point()}')
