#!/usr/bin/env python3
"""Makes a problem, a table that no model restores, and a long refutation of it.

    bench/make_refutation.py FOLDER [--lemmas N] [--examples E] [--seed S]

Writes FOLDER/problem.yml, FOLDER/table.csv and FOLDER/refutation.txt, for the encoding by separation. Two examples have the
same grades and neighbouring categories; the last five lemmas say so. All lemmas before them follow from their hints too and
are there to be checked: a grade that separates a pair implies the better grades, and a pair is separated by some grade.
"""
import argparse
import os
import random

CRITERIA = 4
LEVELS = 1000


def main():
    parser = argparse.ArgumentParser(usage=__doc__)
    parser.add_argument('folder')
    for name, default in (('lemmas', 1000000), ('examples', 60), ('seed', 1)):
        parser.add_argument('--' + name, type=int, default=default)
    words = parser.parse_args()
    draw = random.Random(words.seed)

    rows = [([draw.randrange(LEVELS) for _ in range(CRITERIA)], k % 2) for k in range(words.examples - 1)]
    rows.append((rows[0][0], 1 - rows[0][1]))
    grades = [sorted({row[0][i] for row in rows}) for i in range(CRITERIA)]
    counts = [len(g) for g in grades]
    good = [[grades[i].index(x) for i, x in enumerate(row)] for row, category in rows if category == 1]
    bad = [[grades[i].index(x) for i, x in enumerate(row)] for row, category in rows if category == 0]

    # Two categories, so one boundary: the unknown of a grade, of a separated pair, and the numbers of their clauses.
    starts = [sum(counts[:i]) for i in range(CRITERIA)]
    rising = [sum(count - 1 for count in counts[:i]) for i in range(CRITERIA + 1)]

    def accepts(i, k):
        return 1 + starts[i] + k

    def separates(pair, i):
        return 1 + sum(counts) + pair * CRITERIA + i

    def implies_next(i, k):
        return 1 + rising[i] + k

    def clause_of_good(pair, i):
        return 1 + rising[-1] + pair * (2 * CRITERIA + 1) + 2 * i

    def clause_of_bad(pair, i):
        return clause_of_good(pair, i) + 1

    def clause_of_pair(pair):
        return clause_of_good(pair, CRITERIA)

    clauses = clause_of_pair(len(good) * len(bad) - 1)
    lines = ['lincs-refutation 1 separation']

    def lemma(literals, hints):
        number = clauses + len(lines)
        lines.append(' '.join(map(str, [number] + literals + [0] + hints + [0])))
        return number

    for _ in range(words.lemmas - CRITERIA - 1):
        pair = draw.randrange(len(good) * len(bad))
        ranks = good[pair // len(bad)]
        if draw.randrange(4) == 0:
            lemma([accepts(i, ranks[i]) for i in range(CRITERIA)],
                  [clause_of_good(pair, i) for i in range(CRITERIA)] + [clause_of_pair(pair)])
        else:
            i = draw.randrange(CRITERIA)
            last = min(counts[i] - 1, ranks[i] + draw.randrange(1, 5))
            lemma([-separates(pair, i), accepts(i, last)],
                  [clause_of_good(pair, i)] + [implies_next(i, k) for k in range(ranks[i], last)])
    pair = next(q for q in range(len(good) * len(bad)) if good[q // len(bad)] == bad[q % len(bad)])
    units = [lemma([-separates(pair, i)], [clause_of_good(pair, i), clause_of_bad(pair, i)]) for i in range(CRITERIA)]
    lemma([], units + [clause_of_pair(pair)])

    os.makedirs(words.folder, exist_ok=True)
    problem = ['kind: classification-problem', 'format_version: 1', 'criteria:']
    for i in range(CRITERIA):
        problem += ['  - name: Criterion %d' % i, '    value_type: integer', '    preference_direction: increasing',
                    '    min_value: 0', '    max_value: %d' % LEVELS]
    problem += ['ordered_categories:', '  - name: Category 0', '  - name: Category 1']
    table = [','.join(['name'] + ['Criterion %d' % i for i in range(CRITERIA)] + ['category'])]
    table += [','.join(['Row %d' % n] + list(map(str, row)) + ['Category %d' % k]) for n, (row, k) in enumerate(rows, 1)]
    for name, content in (('problem.yml', problem), ('table.csv', table), ('refutation.txt', lines)):
        with open(os.path.join(words.folder, name), 'w', encoding='utf-8') as file:
            file.write('\n'.join(content) + '\n')


main()
