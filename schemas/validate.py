#!/usr/bin/env python3
"""Checks the schemas: each example file passes, and each wrong file of the list below is refused.

    schemas/validate.py [PROGRAM]

With PROGRAM, the built lincs, it also checks that the program accepts the examples and refuses each wrong file with
the number given here. Needs Debian's python3-jsonschema and python3-yaml.
"""
import json
import os
import re
import subprocess
import sys
import tempfile

import jsonschema
import yaml

HERE = os.path.dirname(os.path.abspath(__file__))
ROOT = os.path.dirname(HERE)
SCHEMA_OF_KIND = {'classification-problem': 'problem', 'ncs-classification-model': 'model'}

PROBLEM = '''\
kind: classification-problem
format_version: 1
criteria:
  - name: Price
    value_type: integer
    preference_direction: decreasing
    min_value: 0
    max_value: 100
  - name: Range
    value_type: real
    preference_direction: increasing
  - name: Comfort
    value_type: enumerated
    ordered_values: [poor, fair, good]
ordered_categories:
  - name: Reject
  - name: Buy
'''

MODEL = '''\
kind: ncs-classification-model
format_version: 1
accepted_values:
  - kind: thresholds
    thresholds: [40]
  - kind: thresholds
    thresholds: [null]
  - kind: thresholds
    thresholds: [fair]
sufficient_coalitions:
  - kind: roots
    upset_roots: [[0, 1], [2]]
'''

WEIGHTS = ('kind: roots\n    upset_roots: [[0, 1], [2]]', 'kind: weights\n    criterion_weights: [0.5, 0.5, 1]')

# A wrong file is PROBLEM or MODEL with one text exchanged for another; the last item is the number of lincs.
WRONG_PROBLEMS = [
    (PROBLEM, '[]\n', 1),
    ('classification-problem', 'ncs-classification-model', 2),
    ('format_version: 1', 'format_version: 2', 3),
    ('format_version: 1\n', '', 3),
    ('criteria:\n', 'criterions:\n', 4),
    (PROBLEM[PROBLEM.index('criteria'):PROBLEM.index('ordered_categories')], 'criteria: []\n', 5),
    ('- name: Price\n    value_type: integer', '- value_type: integer', 6),
    ('- name: Price', '- name: [Price]', 6),
    ('- name: Price', '- name: ""', 7),
    ('- name: Price', '- name: category', 7),
    ('- name: Price', '- name: "Pri\\tce"', 7),
    ('- name: Price', '- name: ' + 201 * 'x', 7),
    ('value_type: real', 'value_type: date', 8),
    ('    value_type: real\n', '', 8),
    ('preference_direction: increasing', 'preference_direction: single-peaked', 9),
    ('    preference_direction: decreasing\n', '', 9),
    ('min_value: 0', 'min_value: few', 10),
    ('min_value: 0', 'min_value: 0.5', 10),
    ('max_value: 100', 'max_value: 2000000000000000000', 10),
    ('max_value: 100', 'max_value: [100]', 10),
    ('    ordered_values: [poor, fair, good]\n', '', 11),
    ('[poor, fair, good]', '[poor]', 11),
    ('[poor, fair, good]', '[poor, poor]', 11),
    ('[poor, fair, good]', '[poor, null]', 11),
    ('ordered_categories:\n  - name: Reject\n  - name: Buy\n', '', 12),
    ('  - name: Buy\n', '', 13),
    ('- name: Buy', '- nom: Buy', 14),
    ('- name: Buy', '- name: Reject', 14),
]
WRONG_MODELS = [
    (MODEL, 'text\n', 1),
    ('ncs-classification-model', 'classification-problem', 2),
    ('format_version: 1', 'format_version: 1.5', 3),
    ('accepted_values:', 'accepted:', 4),
    ('kind: thresholds\n    thresholds: [40]', 'kind: intervals\n    thresholds: [40]', 5),
    ('thresholds: [40]', 'thresholds: 40', 5),
    ('thresholds: [40]', 'thresholds: []', 6),
    ('thresholds: [40]', 'thresholds: [[40]]', 7),
    ('sufficient_coalitions:', 'coalitions:', 9),
    ('kind: roots', 'kind: majority', 10),
    ('upset_roots: [[0, 1], [2]]', 'upset_roots: 2', 10),
    (WEIGHTS[0], 'kind: weights\n    upset_roots: [[0]]', 10),
    (WEIGHTS[0], 'kind: weights\n    criterion_weights: [0.5, -0.5, 1]', 11),
    (WEIGHTS[0], 'kind: weights\n    criterion_weights: [0.5, half, 1]', 11),
    ('[[0, 1], [2]]', '[0, 1]', 12),
    ('[[0, 1], [2]]', '[[0, 0]]', 12),
    ('[[0, 1], [2]]', '[[-1]]', 12),
    ('[[0, 1], [2]]', '[[Price]]', 12),
]

# Files that lincs refuses and no schema can: docs/FORMATS.md lists what a schema does not see.
ONLY_LINCS = [
    ('problem', '- name: Range', '- name: Price', 7),
    ('problem', 'max_value: 100', 'max_value: -1', 10),
    ('problem', 'max_value: 100', 'max_value: 1.5e0', 10),
    ('problem', '- name: Price', '- name: ' + 101 * '\u00e9', 7),
    ('model', 'thresholds: [40]', 'thresholds: [40, 30]', 6),
    ('model', 'thresholds: [40]', 'thresholds: [101]', 7),
    ('model', 'thresholds: [fair]', 'thresholds: [fine]', 7),
    ('model', '[[0, 1], [2]]', '[[3]]', 12),
    ('model', WEIGHTS[0], 'kind: weights\n    criterion_weights: [0.5, 0.5]', 11),
    ('model', WEIGHTS[0], 'kind: weights\n    criterion_weights: [1e-19, 0.5, 1]', 11),
]


def schema(name):
    with open(os.path.join(HERE, name + '.schema.json'), encoding='utf-8') as file:
        content = json.load(file)
    jsonschema.Draft7Validator.check_schema(content)
    return jsonschema.Draft7Validator(content)


def yaml_files():
    for top in ('examples', 'crates'):
        for folder, _, names in os.walk(os.path.join(ROOT, top)):
            if top == 'crates' and os.path.basename(folder) != 'data':
                continue
            for name in sorted(names):
                if name.endswith('.yml'):
                    yield os.path.join(folder, name)


def error_line(program, folder, kind, text):
    """The error line of `describe` for a file, over PROBLEM if it is a model; '' if it is accepted."""
    path = os.path.join(folder, 'file.yml')
    with open(path, 'w', encoding='utf-8') as file:
        file.write(text)
    words = ['describe', 'problem', path]
    if kind == 'model':
        with open(os.path.join(folder, 'problem.yml'), 'w', encoding='utf-8') as file:
            file.write(PROBLEM)
        words = ['describe', 'model', os.path.join(folder, 'problem.yml'), path]
    return subprocess.run([program] + words, stdin=subprocess.DEVNULL, capture_output=True, text=True).stderr


def main():
    program = sys.argv[1] if len(sys.argv) > 1 else None
    schemas = {name: schema(name) for name in ('problem', 'model')}
    base = {'problem': PROBLEM, 'model': MODEL}
    bad, count = [], 0
    for path in yaml_files():
        with open(path, encoding='utf-8') as file:
            content = yaml.safe_load(file)
        faults = list(schemas[SCHEMA_OF_KIND[content['kind']]].iter_errors(content))
        count += 1
        if faults:
            bad.append('%s: %s' % (path, faults[0].message))
    cases = [(kind, None, None, None, True) for kind in base] + [('model',) + WEIGHTS + (None, True)]
    cases += [('problem',) + w + (False,) for w in WRONG_PROBLEMS] + [('model',) + w + (False,) for w in WRONG_MODELS]
    cases += [w + (True,) for w in ONLY_LINCS]
    with tempfile.TemporaryDirectory() as folder:
        for kind, old, new, number, passes in cases:
            text = base[kind]
            if old is not None:
                assert text.count(old) == 1, old
                text = text.replace(old, new)
            count += 1
            said = [e.message for e in schemas[kind].iter_errors(yaml.safe_load(text))]
            if passes != (not said):
                bad.append('%s with %r: the schema says %s' % (kind, new, said or 'nothing'))
            if program:
                line = error_line(program, folder, kind, text)
                wanted = '' if number is None else r'lincs: .*: %s %d( at \d+)?\n' % (kind, number)
                if not re.fullmatch(wanted, line):
                    bad.append('%s with %r: lincs says %r' % (kind, new, line))
    for line in bad:
        print(line)
    print('%d files checked, %d wrong' % (count, len(bad)))
    sys.exit(1 if bad else 0)


main()
