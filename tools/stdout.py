#!/usr/bin/env python3
"""Prints what the cases print where none fails, which is the file `stdout` of `ds_cases`.

    stdout.py FOLDER
"""
import os
import sys

import compare


def main(folder):
    count = 0
    for name in sorted(os.listdir(folder)):
        if name.endswith('.cases'):
            for case in compare.cases_of(os.path.join(folder, name)):
                for word in case['each'] or [None]:
                    count += 1
                    print(case['name'] + ('' if word is None else f' {word}') + ': ok')
    print(f'{count} cases, 0 failed')


if __name__ == '__main__':
    main(sys.argv[1])
