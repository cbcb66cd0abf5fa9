"""python3 bench/flows.py FLOW_BENCH [ROWS]: processor seconds of a filter that keeps half of the rows of a table of two columns
(1,000,000 rows if not given), over whole tables and by a run in pieces of 100,000 and of 1,000 rows, which one worker drives; and
what a piece costs above it.

The seconds of a way: the program is run with the way gone once and TIMES times more, and the difference is divided. The runs of all ways
take turns, ROUNDS times, and the best of each counts, so that what else the machine does for a while falls on all of them. A graph has
three nodes, a source, a filter and a sink, so each morsel is taken three times."""
import sys

from tables import run

TIMES = 8
ROUNDS = 7
NODES = 3
WAYS = [('plain', 100_000), ('pieces', 100_000), ('pieces', 1_000)]


def seconds_of(bench, rows):
    """The seconds of each way, and the peak memory of a run with it gone once."""
    best, memory = {}, {}
    for _ in range(ROUNDS):
        for way, morsel in WAYS:
            for times in (1, 1 + TIMES):
                seconds, megabytes = run([bench, str(rows), str(morsel), way, str(times)])
                best[way, morsel, times] = min(seconds, best.get((way, morsel, times), seconds))
                if times == 1:
                    memory[way, morsel] = megabytes
    return {it: max(best[*it, 1 + TIMES] - best[*it, 1], 0) / TIMES for it in WAYS}, memory


def main():
    bench = sys.argv[1]
    rows = int(sys.argv[2]) if len(sys.argv) > 2 else 1_000_000
    seconds, memory = seconds_of(bench, rows)
    plain = seconds[WAYS[0]]
    print('%-24s %10s %8s %16s %8s' % ('', 'seconds', 'times', 'us a morsel', 'peak'))
    for way, morsel in WAYS:
        taken = seconds[way, morsel]
        each = (taken - plain) * 1e6 / (NODES * -(-rows // morsel))
        print('%-24s %8.4f s %8.2f %16.2f %5.0f MB' % (f'{way} of {morsel}', taken, taken / plain if plain else 0, each, memory[way, morsel]), flush=True)


if __name__ == '__main__':
    main()
