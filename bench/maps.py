"""python3 bench/maps.py PROGRAM [KEYS]: nanoseconds a key of BytesIndexMap beside std's HashMap of byte keys, and their ratio.

PROGRAM is map_bench as `rt run` builds it. It puts in KEYS keys (1,000,000 if not given) of 9 and of 30 bytes, and looks each up. The
runs of the two maps take turns, and the best of seven counts for each."""
import subprocess
import sys

RUNS = 7


def nanoseconds(program, keys, length, kind, work):
    ended = subprocess.run([program, str(keys), str(length), kind, work], capture_output=True, check=True)
    return int(ended.stdout), int(ended.stderr)


def main():
    program = sys.argv[1]
    keys = int(sys.argv[2]) if len(sys.argv) > 2 else 1_000_000
    for work in ('insert', 'find'):
        for length in (9, 30):
            best = {}
            for _ in range(RUNS):
                sums = set()
                for kind in ('ours', 'std'):
                    checksum, took = nanoseconds(program, keys, length, kind, work)
                    sums.add(checksum)
                    best[kind] = min(took, best.get(kind, took))
                assert len(sums) == 1, 'the maps disagree'
            ours, std = best['ours'] / keys, best['std'] / keys
            print('%s, %d bytes: ours %.0f ns, std %.0f ns, ratio %.2f' % (work, length, ours, std, ours / std))


if __name__ == '__main__':
    main()
