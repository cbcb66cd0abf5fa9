"""python3 bench/nodes.py NODE_BENCH [ROWS [WORK ..]]: processor seconds and peak memory of nodes and of expressions over a whole table
(1,000,000 rows if not given), the seconds over a tenth of the rows, and the exponent by which they grow between the two.

The nodes, as `evaluate_node` computes them over scans: group-by of 7 and of 100,000 groups with a sum and a count, distinct over two
columns, inner join with a table of 10,000 keys, sort by two keys. The expressions, as `evaluate` computes them: value + many * 2 > key,
a cast of texts to whole numbers, a sort by two keys, a sum, and how many values are distinct.

The seconds of a work: the program is run with the work done once and TIMES times more (ten times as often over a tenth of the rows),
and the difference is divided. The four runs of a work take turns, ROUNDS times, and the best of each counts, so that what else the
machine does for a while falls on all of them. The peak is that of a run with the work done once; the table is in it."""
import math
import sys

from tables import run

NODES = ['group_by_7', 'group_by_100000', 'distinct', 'join', 'sort']
EXPRESSIONS = ['compare', 'cast', 'sort_by', 'sum', 'n_unique']
TIMES = 8
ROUNDS = 7


def seconds_of(bench, work, rows):
    """The seconds over a tenth of the rows and over all, and the peak memory of the second."""
    more = {rows // 10: 10 * TIMES, rows: TIMES}
    best, memory = {}, 0
    for _ in range(ROUNDS):
        for height in more:
            for times in (1, 1 + more[height]):
                seconds, megabytes = run([bench, str(height), work, str(times)])
                best[height, times] = min(seconds, best.get((height, times), seconds))
                if (height, times) == (rows, 1):
                    memory = max(memory, megabytes)
    fewer, whole = (max(best[height, 1 + times] - best[height, 1], 0) / times for height, times in more.items())
    return fewer, whole, memory


def main():
    bench = sys.argv[1]
    rows = int(sys.argv[2]) if len(sys.argv) > 2 else 1_000_000
    print('%-16s %12s %12s %9s %8s' % ('', '%d rows' % (rows // 10), '%d rows' % rows, 'exponent', 'peak'))
    for work in sys.argv[3:] or NODES + EXPRESSIONS:
        fewer, seconds, memory = seconds_of(bench, work, rows)
        exponent = '%9.2f' % math.log10(seconds / fewer) if fewer > 0 and seconds > 0 else '%9s' % '-'
        print('%-16s %10.4f s %10.4f s %s %5.0f MB' % (work, fewer, seconds, exponent, memory), flush=True)


if __name__ == '__main__':
    main()
