"""python3 bench/tables.py TABLE_BENCH [ROWS]: processor seconds and peak memory of the calls on a table of whole numbers, ids
and texts of 8 letters (1,000,000 rows if not given).

The seconds of a call: the program is run with the call done TIMES times and not at all, and the difference is divided. The
peak is that of a run with one call."""
import os
import subprocess
import sys

TIMES = {'share': 1000, 'slice': 1000, 'filter': 10, 'filter_all': 10, 'vstack': 10, 'vstack_empty': 1000}
RUNS = 3


def run(command, document=None):
    """The processor seconds and the peak memory, in MB, of one run."""
    if document:
        document.seek(0)
    process = subprocess.Popen(command, stdin=document, stdout=subprocess.DEVNULL, stderr=subprocess.DEVNULL)
    _, status, usage = os.wait4(process.pid, 0)
    process.returncode = os.waitstatus_to_exitcode(status)
    assert process.returncode == 0, 'the program failed'
    return usage.ru_utime + usage.ru_stime, usage.ru_maxrss / 1024


def measure(command, document=None):
    """The same, the least seconds and the greatest peak of several runs."""
    runs = [run(command, document) for _ in range(RUNS)]
    return min(seconds for seconds, _ in runs), max(megabytes for _, megabytes in runs)


def show(name, seconds, megabytes):
    print('%-14s %12.6f s %8.0f MB' % (name, seconds, megabytes))


def main():
    bench = sys.argv[1]
    rows = int(sys.argv[2]) if len(sys.argv) > 2 else 1_000_000
    built, memory = measure([bench, 'build', str(rows), '0'])
    show('build', built, memory)
    for work, times in TIMES.items():
        seconds, _ = measure([bench, work, str(rows), str(times)])
        _, memory = measure([bench, work, str(rows), '1'])
        show(work, max(seconds - built, 0) / times, memory)


if __name__ == '__main__':
    main()
