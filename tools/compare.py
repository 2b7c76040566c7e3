#!/usr/bin/env python3
"""Compares what the cases of runs want with what the model of the rules says.

    compare.py [--visits] FILE..

takes files of cases, runs the model on each case of `replay` that ends with a report, and prints the lines in which
they differ. It ends with status 0 exactly where none does. It passes over cases of refusals and of faults.
"""
import os
import sys

import model

OPTIONS = ('seed', 'pages', 'fuel', 'logs')


def bytes_of(folder, lines):
    """The bytes that the lines of a case spell, each a mark and a text."""
    out = b''
    for mark, text in lines:
        if mark == '':
            out += text.encode() + b'\n'
        elif mark == '-':
            out += text.encode()
        elif mark == 'x':
            out += bytes(int(digits, 16) for digits in text.split())
        elif mark == '@':
            with open(os.path.join(folder, text.strip()), 'rb') as file:
                out += file.read()
        else:
            count, quoted = text.split(' ', 1)
            piece = quoted.strip()[1:-1]
            for number in range(int(count)):
                out += (piece.replace('NUMBER', str(number)) if mark == '#' else piece).encode()
    return out


def cases_of(path):
    """The cases of a file, each a dictionary; settings before the first one hold for all."""
    common = {'words': [], 'status': 0, 'each': [], 'input': [], 'output': []}
    case = None
    with open(path, encoding='utf-8') as file:
        for line in file.read().split('\n'):
            key, _, text = line.partition(' ')
            if not line.strip() or line.startswith('#'):
                continue
            if key == 'case':
                if case is not None:
                    yield case
                case = {k: list(v) if isinstance(v, list) else v for k, v in common.items()}
                case['name'] = text
                continue
            known = common if case is None else case
            if key[0] in '<>':
                known['input' if key[0] == '<' else 'output'].append((key[1:], text))
            elif key == 'each':
                known['each'] += text.split()
            elif key == 'words':
                known['words'] = text.split()
            else:
                known[key] = int(text)
    if case is not None:
        yield case


def calls_of(folder, case):
    """The calls of a case: its word, the words, the input and the output that is wanted."""
    for word in case['each'] or [None]:
        def put(text):
            return text if word is None else text.replace('WORD', word)
        words = [part for text in case['words'] for part in put(text).split('=')]
        wanted = bytes_of(folder, [(mark, put(text)) for mark, text in case['output']])
        if 'replay' in words and b'main ' in wanted and 'room' not in case:
            yield word, words, bytes_of(folder, [(mark, put(text)) for mark, text in case['input']]), wanted


def differences(words, text, status, wanted, visits):
    """The lines of which one has more than the other, and the status where it is another one."""
    options = {name: int(words[words.index('--' + name) + 1]) for name in OPTIONS if '--' + name in words}
    told, ended = model.replay(text.decode('latin-1'), visits=visits, **options)
    lines = wanted.decode().split('\n')[:-1]
    if told == lines and ended == status:
        return []
    missing = [f'    wanted {line}' for line in lines if line not in told]
    return missing + [f'    model  {line}' for line in told if line not in lines] + [f'    status {status}, model {ended}']


def main(words):
    visits = '--visits' in words
    same = differ = 0
    for path in words:
        if path == '--visits':
            continue
        for case in cases_of(path):
            for word, call, text, wanted in calls_of(os.path.dirname(path), case):
                found = differences(call, text, case['status'], wanted, visits)
                same, differ = same + (not found), differ + bool(found)
                if found:
                    print(f'{path}: {case["name"]}' + (f' [{word}]' if word else ''))
                    print('\n'.join(found))
    print(f'{same} calls as the model has them, {differ} not')
    return 1 if differ else 0


if __name__ == '__main__':
    sys.exit(main(sys.argv[1:]))
