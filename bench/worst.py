"""python3 bench/worst.py PLAN_TOOL [CASE ..]: documents below 2 MB that would take long if something grew faster than it should. Of
each it prints the size of the document, the processor seconds and the peak memory of the whole program, and the exponent by which the
seconds grow from half the size. The deep cases run on a stack of 256 KB.

A case makes its document from a number: of rows, of keys, of names, of operators. Keys are chosen so that their hashes are equal, or lie
so close together that a table puts all of them in one bucket."""
import itertools
import json
import math
import sys
import tempfile

from tables import measure

WORD = 2 ** 64 - 1


# Documents.

def plan(tables, exprs, nodes):
    """A document whose last node but the sink is answered."""
    return {'tables': tables, 'exprs': exprs, 'nodes': nodes + [['sink', len(nodes) - 1]], 'root': len(nodes)}


def group_by(keys, kind):
    """How often each key stands in a column. Few rows go out, so that they cost no time."""
    return plan([[['key', kind, keys]]], [['col', 'key'], ['len']],
                [['scan', 0, None], ['group_by', 0, [['key', 0]], [['count', 1]], True, None], ['slice', 1, 0, 5]])


def distinct(columns, kind):
    names = [chr(ord('a') + i) for i in range(len(columns))]
    return plan([[[name, kind, cells] for name, cells in zip(names, columns)]], [],
                [['scan', 0, None], ['distinct', 0, names, True, 'first', None], ['slice', 1, 0, 5]])


def join(left, right, kind):
    """The pairs of equal keys."""
    return plan([[['key', kind, left]], [['key', kind, right]]], [['col', 'key']],
                [['scan', 0, None], ['scan', 1, None], ['join', 0, 1, 'inner', [0], [0], None, False, 'm:m', None], ['slice', 2, 0, 5]])


# Keys that share a bucket: the hash of a number that stands alone is the number, its upper half folded into its lower one, times
# FACTOR; `hash_number` in crates/ps_keys/src/rows.rt has it. Small hashes lie in the first bucket.

FACTOR = 0x9e3779b97f4a7c15


def signed(word):
    return word - 2 ** 64 if word >= 2 ** 63 else word


def numbers(count):
    back = pow(FACTOR, -1, 2 ** 64)
    products = (hash * back & WORD for hash in range(1, count + 1))
    return [signed(product ^ product >> 32) for product in products]


def shards(count):
    """Numbers in their top bits: multiples of 2^44, and of higher powers."""
    return [signed(i << 44 & WORD) for i in range(count)]


# The other hashes are those of std's `FoldHasher`.

START = 0x243f6a8885a308d3


def folded(a, b):
    product = a * b
    return product & WORD ^ product >> 64


def pairs(count):
    """Two columns of numbers, of which all rows have one hash: the second number takes back what the first one did."""
    first = range(count)
    return [list(first), [signed(folded(START ^ a, FACTOR ^ 16) ^ 1) for a in first]]


def texts(count):
    """Texts of 32 bytes with one hash: the third word takes back what the first two did, so the product with the fourth is 0."""
    second = int.from_bytes(b'-second-', 'little') ^ FACTOR
    for letters in itertools.product(b'abcdefghijklmnopqrstuvwxyz', repeat=8):
        third = folded(int.from_bytes(bytes(letters), 'little') ^ (START + 32 & WORD), second).to_bytes(8, 'little')
        if third.isalnum():
            front = (bytes(letters) + b'-second-' + third).decode()
            return ['%s%08d' % (front, i) for i in range(count)]


def names(count):
    """A table of so many columns, and two of them by their names."""
    chosen = texts(count)
    return plan([[[name, 'int', [1]] for name in chosen]], [['col', chosen[0]], ['col', chosen[-1]]],
                [['scan', 0, None], ['select', 0, [['a', 0], ['b', 1]]]])


# Joins under a slice, and aggregates of many groups.

def sliced_join(how, left, right, slice):
    """A join of two columns of whole numbers, of which a slice is kept."""
    keys = [] if how == 'cross' else [0]
    return plan([[['key', 'int', left]], [['key', 'int', right], ['row', 'int', list(range(len(right)))]]], [['col', 'key']],
                [['scan', 0, None], ['scan', 1, None], ['join', 0, 1, how, keys, keys, None, False, 'm:m', slice]])


def cross_join(count, slice):
    return sliced_join('cross', list(range(count)), list(range(count)), slice)


def equal_keys(how, count, slice):
    return sliced_join(how, [7] * count, [7] * count, slice)


FUNCTIONS = ['min', 'max', 'first', 'last', 'n_unique', 'sum']


def columns_of_groups(groups, columns):
    return [['key', 'int', list(range(groups))]] + [['c%d' % i, 'int', [i] * groups] for i in range(columns)]


def aggregates(groups, columns):
    """A row for each group, and in it as many aggregates as there are columns, each of one of these."""
    exprs, named = [['col', 'key']] + [['col', 'c%d' % i] for i in range(columns)], []
    for i in range(columns):
        named.append(['a%d' % i, len(exprs)])
        exprs.append([FUNCTIONS[i % len(FUNCTIONS)], 1 + i])
    return plan([columns_of_groups(groups, columns)], exprs, [['scan', 0, None], ['group_by', 0, [['key', 0]], named, True, [0, 5]]])


def aggregates_of_sums(groups, columns):
    """The same where each aggregate is that of the sum of two columns, which needs the tables of the groups."""
    exprs, named = [['col', 'key']] + [['col', 'c%d' % i] for i in range(columns)], []
    for i in range(columns):
        named.append(['a%d' % i, len(exprs) + 1])
        exprs += [['add', 1 + i, 1 + (i + 1) % columns], ['max', len(exprs)]]
    return plan([columns_of_groups(groups, columns)], exprs, [['scan', 0, None], ['group_by', 0, [['key', 0]], named, True, [0, 5]]])


def aggregates_of_heights(count):
    """So many rows of one group, and as many aggregates, each of an expression that reads no column."""
    exprs = [['col', 'key'], ['len'], ['cast', 1, 'int', True]]
    return plan([[['key', 'int', [1] * count]]], exprs, [['scan', 0, None], ['group_by', 0, [['key', 0]], [['a%d' % i, 2] for i in range(count)], True, None]])


# Shared expressions, and deep ones.

def doublings(rows, times):
    """A column added to itself so many times over, each time once."""
    exprs = [['col', 'a']] + [['add', i, i] for i in range(times)]
    return plan([[['a', 'int', [i % 7 for i in range(rows)]]]], exprs, [['scan', 0, None], ['select', 0, [['x', times]]], ['slice', 1, 0, 5]])


def shared_by_columns(rows, columns, times):
    """So many columns, each a number more than one expression of so many operators."""
    exprs, named = [['col', 'a']] + [['add', i, 0] for i in range(times)], []
    for i in range(columns):
        exprs += [['int', i], ['add', times, len(exprs)]]
        named.append(['c%d' % i, len(exprs) - 1])
    return plan([[['a', 'int', [i % 7 for i in range(rows)]]]], exprs, [['scan', 0, None], ['select', 0, named], ['slice', 1, 0, 5]])


def one_text(rows, length):
    """A text that stands in each row, compared with itself there."""
    return plan([[['a', 'int', [i % 7 for i in range(rows)]]]], [['str', 'x' * length], ['col', 't'], ['eq', 1, 0], ['col', 'a']],
                [['scan', 0, None], ['hstack', 0, [['t', 0]]], ['filter', 1, 2], ['select', 2, [['a', 3]]], ['slice', 3, 0, 5]])


# A few long texts that stand in many rows. They differ in their last byte alone.

TEXTS = 200_000


def long_texts(count):
    return ['x' * TEXTS + chr(ord('a') + i) for i in range(count)]


def in_many_rows(rows, exprs, nodes):
    """Each of two long texts beside each of so many rows, and what is done with them; node 2 has them in the columns text and row."""
    return plan([[['row', 'int', [i * i % 1_000_003 for i in range(rows)]]], [['text', 'str', long_texts(2)]]], [['col', 'text'], ['col', 'row']] + exprs,
                [['scan', 0, None], ['scan', 1, None], ['join', 0, 1, 'cross', [], [], None, False, 'm:m', None]] + nodes)


def of_texts(rows, *exprs):
    """A whole expression over them."""
    return in_many_rows(rows, list(exprs), [['select', 2, [['x', 1 + len(exprs)]]]])


def counted(rows, *exprs):
    """How many rows a whole expression over them has, so that no long text goes out."""
    return in_many_rows(rows, list(exprs) + [['len']], [['select', 2, [['x', 1 + len(exprs)]]], ['select', 3, [['n', 2 + len(exprs)]]]])


def texts_in_groups(rows, functions):
    """What functions tell of the texts in each of seven groups of rows."""
    return in_many_rows(rows, [['int', 7], ['mod', 1, 2]] + [[function, 0] for function in functions],
                        [['group_by', 2, [['key', 3]], [[function, 4 + i] for i, function in enumerate(functions)], True, None], ['project', 3, ['key']]])


def beside_text(rows, nodes):
    """One long text, from the plan, beside each row."""
    return plan([[['row', 'int', [i * i % 1_000_003 for i in range(rows)]]]], [['col', 'row'], ['str', 'x' * TEXTS], ['col', 'text']],
                [['scan', 0, None], ['hstack', 0, [['text', 1]]]] + nodes)


def deep(operator, depth):
    """An expression of so many operators, each made of the number of the one inside it."""
    exprs = [['col', 'a'], ['bool', True], ['int', 0], ['int', 5]]
    for i in range(depth):
        exprs.append(operator(0 if i == 0 else len(exprs) - 1))
    return plan([[['a', 'int', [3, 1, 2]]]], exprs, [['scan', 0, None], ['select', 0, [['x', len(exprs) - 1]]]])


# A case: how a document is made from its size, that size, and the kilobytes of stack if there are to be few.
CASES = {
    'group-by of numbers': (lambda n: group_by(numbers(n), 'int'), 60_000),
    'group-by of shards': (lambda n: group_by(shards(n), 'int'), 60_000),
    'distinct of pairs': (lambda n: distinct(pairs(n), 'int'), 40_000),
    'join of numbers': (lambda n: join(numbers(n), numbers(n)[::-1], 'int'), 32_500),
    'group-by of texts': (lambda n: group_by(texts(n), 'str'), 40_000),
    'join of texts': (lambda n: join(texts(n), texts(n)[::-1], 'str'), 20_000),
    'names of columns': (names, 40_000),
    'cross join, first rows': (lambda n: cross_join(n, [0, 5]), 20_000),
    'cross join, last rows': (lambda n: cross_join(n, [-5, 5]), 20_000),
    'inner join, first rows': (lambda n: equal_keys('inner', n, [0, 5]), 60_000),
    'inner join, last rows': (lambda n: equal_keys('inner', n, [-5, 5]), 60_000),
    'full join, rows in the middle': (lambda n: equal_keys('full', n, [n * n // 2, 5]), 60_000),
    'aggregates of columns': (lambda n: aggregates(1_000, n), 200),
    'aggregates of sums': (lambda n: aggregates_of_sums(1_000, n), 200),
    'aggregates of heights': (aggregates_of_heights, 20_000),
    'fourteen doublings': (lambda n: doublings(n, 14), 20_000),
    'columns that share': (lambda n: shared_by_columns(20_000, n, 28), 1_000),
    'one text in all rows': (lambda n: one_text(n, 500_000), 100_000),
    'long texts sorted': (lambda n: in_many_rows(n, [], [['sort', 2, [0, 1], [False], [False], None], ['slice', 3, 0, 1]]), 10_000),
    'long texts in order': (lambda n: counted(n, ['sort', 0, True, False]), 10_000),
    'long texts by a key': (lambda n: counted(n, ['sort_by', 1, [0, 1], [True, False], [False]]), 10_000),
    'least and greatest long text': (lambda n: of_texts(n, ['min', 0], ['max', 0], ['lt', 2, 3]), 10_000),
    'distinct long texts': (lambda n: of_texts(n, ['n_unique', 0]), 10_000),
    'long texts in groups': (lambda n: texts_in_groups(n, ['min', 'max', 'n_unique']), 10_000),
    'group-by of long texts': (lambda n: in_many_rows(n, [['sum', 1], ['col', 'key']], [['group_by', 2, [['text', 0]], [['sum', 2]], True, None], ['project', 3, ['sum']]]), 10_000),
    'distinct of long texts': (lambda n: in_many_rows(n, [], [['distinct', 2, ['text', 'row'], True, 'first', None], ['slice', 3, 0, 1]]), 10_000),
    'a long text beside rows': (lambda n: beside_text(n, [['distinct', 1, None, True, 'first', None], ['slice', 2, 0, 1]]), 20_000),
    'a long text beside rows, sorted': (lambda n: beside_text(n, [['sort', 1, [2, 0], [False], [False], None], ['slice', 2, 0, 1]]), 20_000),
    'join of long texts': (lambda n: in_many_rows(n, [], [['join', 2, 1, 'semi', [0], [0], None, False, 'm:m', None], ['slice', 3, 0, 1]]), 10_000),
    'long texts reversed': (lambda n: counted(n, ['reverse', 0]), 10_000),
    'long texts compared': (lambda n: of_texts(n, ['min', 0], ['eq', 0, 2], ['sum', 3]), 10_000),
    'long texts chosen': (lambda n: of_texts(n, ['str', 'y'], ['lt', 0, 2], ['str', 'z' * TEXTS], ['ternary', 3, 0, 4], ['is_null', 5], ['sum', 6]), 10_000),
    'deep sums': (lambda n: deep(lambda e: ['add', e, 0], n), 253, 256),
    'deep choices': (lambda n: deep(lambda e: ['ternary', 1, e, 0], n), 253, 256),
    'deep slices': (lambda n: deep(lambda e: ['slice', e, 2, 3], n), 253, 256),
    'deep sorts': (lambda n: deep(lambda e: ['sort_by', e, [0], [False], [False]], n), 253, 256),
    'deep reverses': (lambda n: deep(lambda e: ['reverse', e], n), 253, 256),
}


def seconds_of(program, document, stack=None):
    """The document's size in bytes, and the least seconds and the peak memory of some runs."""
    command = [program, 'run'] if stack is None else ['sh', '-c', 'ulimit -s %d && exec "$0" run' % stack, program]
    with tempfile.TemporaryFile() as file:
        file.write(json.dumps(document, separators=(',', ':')).encode())
        file.flush()
        return file.tell(), *measure(command, file)


def main():
    program = sys.argv[1]
    print('%-32s %8s %9s %9s %8s %8s' % ('', 'size', 'document', 'seconds', 'growth', 'peak'))
    for name in sys.argv[2:] or CASES:
        make, size, *stack = CASES[name]
        try:
            _, half, _ = seconds_of(program, make(size // 2), *stack)
            length, seconds, megabytes = seconds_of(program, make(size), *stack)
        except AssertionError as failure:
            print('%-32s %8d %s' % (name, size, failure), flush=True)
            continue
        growth = '%8.2f' % math.log2(seconds / half) if half > 0 and seconds > 0 else '%8s' % '-'
        print('%-32s %8d %6.2f MB %7.2f s %s %5.0f MB' % (name, size, length / 1e6, seconds, growth, megabytes), flush=True)


if __name__ == '__main__':
    main()
