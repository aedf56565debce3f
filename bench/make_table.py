#!/usr/bin/env python3
"""Makes a problem, a model and a table that the model sorts.

    bench/make_table.py FOLDER [--criteria N] [--categories K] [--rows R] [--roots] [--exchanged E] [--seed S]

Writes FOLDER/problem.yml, FOLDER/model.yml and FOLDER/table.csv. The criteria are whole numbers, rising decimals, falling
decimals and names, in turn. The model has weights, or with --roots four roots. With --exchanged, that many rows get a
neighbouring category, so that learning has to search or to refute. The same words give the same files.
"""
import argparse
import os
import random

NAMES = ['poor', 'fair', 'good', 'very good', 'best']
UNITS = 10 ** 6


def spelled(thousandths):
    return ('%d.%03d' % divmod(thousandths, 1000)).rstrip('0').rstrip('.')


class Whole:
    lines = ['value_type: integer', 'preference_direction: increasing', 'min_value: 0', 'max_value: 1000']
    levels = 1001
    cell = staticmethod(str)


class Rising:
    lines = ['value_type: real', 'preference_direction: increasing', 'min_value: 0', 'max_value: 10']
    levels = 10001
    cell = staticmethod(spelled)


class Falling:
    lines = ['value_type: real', 'preference_direction: decreasing', 'min_value: 0', 'max_value: 10']
    levels = 10001

    @staticmethod
    def cell(level):
        return spelled(10000 - level)


class Named:
    lines = ['value_type: enumerated', 'ordered_values: [%s]' % ', '.join(NAMES)]
    levels = len(NAMES)
    cell = staticmethod(NAMES.__getitem__)


def problem_text(scales, categories):
    lines = ['kind: classification-problem', 'format_version: 1', 'criteria:']
    for place, scale in enumerate(scales):
        lines.append('  - name: Criterion %d' % place)
        lines += ['    ' + line for line in scale.lines]
    lines.append('ordered_categories:')
    lines += ['  - name: Category %d' % place for place in range(categories)]
    return '\n'.join(lines) + '\n'


def model_text(scales, thresholds, weights, roots):
    boundaries = len(thresholds[0])
    lines = ['kind: ncs-classification-model', 'format_version: 1', 'accepted_values:']
    for scale, levels in zip(scales, thresholds):
        lines += ['  - kind: thresholds', '    thresholds: [%s]' % ', '.join(map(scale.cell, levels))]
    lines += ['sufficient_coalitions:', '  - &coalitions']
    if roots is None:
        lines += ['    kind: weights']
        lines += ['    criterion_weights: [%s]' % ', '.join('%d.%06d' % divmod(w, UNITS) for w in weights)]
    else:
        lines += ['    kind: roots', '    upset_roots:'] + ['      - [%s]' % ', '.join(map(str, root)) for root in roots]
    return '\n'.join(lines + ['  - *coalitions'] * (boundaries - 1)) + '\n'


def main():
    parser = argparse.ArgumentParser(usage=__doc__)
    parser.add_argument('folder')
    for name, default in (('criteria', 8), ('categories', 3), ('rows', 1000), ('exchanged', 0), ('seed', 1)):
        parser.add_argument('--' + name, type=int, default=default)
    parser.add_argument('--roots', action='store_true')
    words = parser.parse_args()
    draw = random.Random(repr(vars(words) | {'folder': ''}))
    scales = [(Whole, Rising, Falling, Named)[place % 4] for place in range(words.criteria)]
    boundaries = range(words.categories - 1)

    thresholds = [sorted(draw.randrange(scale.levels // 5, scale.levels - scale.levels // 5) for _ in boundaries) for scale in scales]
    shares = [draw.randrange(100, 1000) for _ in scales]
    weights = [-(-share * UNITS * 5 // (sum(shares) * 3)) for share in shares]
    roots = None
    if words.roots:
        size = max(1, words.criteria // 2)
        roots = [sorted(draw.sample(range(words.criteria), size)) for _ in range(4)]

    def sufficient(accepted):
        if roots is not None:
            return any(all(accepted[place] for place in root) for root in roots)
        return sum(weight for weight, yes in zip(weights, accepted) if yes) >= UNITS

    def category(levels):
        reached = [h + 1 for h in boundaries if sufficient([x >= t[h] for x, t in zip(levels, thresholds)])]
        return max(reached, default=0)

    rows = [[draw.randrange(scale.levels) for scale in scales] for _ in range(words.rows)]
    given = [category(row) for row in rows]
    for row in draw.sample(range(words.rows), min(words.exchanged, words.rows)):
        given[row] += 1 if given[row] == 0 else -1 if given[row] == len(boundaries) else draw.choice([-1, 1])

    os.makedirs(words.folder, exist_ok=True)

    def write(name, text):
        with open(os.path.join(words.folder, name), 'w', encoding='utf-8') as file:
            file.write(text)

    write('problem.yml', problem_text(scales, words.categories))
    write('model.yml', model_text(scales, thresholds, weights, roots))
    lines = [','.join(['name'] + ['Criterion %d' % place for place in range(words.criteria)] + ['category'])]
    for number, (row, place) in enumerate(zip(rows, given), 1):
        lines.append(','.join(['Row %d' % number] + [scale.cell(x) for scale, x in zip(scales, row)] + ['Category %d' % place]))
    write('table.csv', '\n'.join(lines) + '\n')


main()
