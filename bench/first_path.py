"""python3 bench/first_path.py PROGRAM [CELLS]: seconds and peak memory of a filter over CELLS whole numbers (3,000,000 if not given),
beside those of a document that is read and then refused, which is about the share of reading the JSON."""
import os
import random
import subprocess
import sys
import tempfile
import time

AT_ONCE = 10_000


def write_document(file, cells, root):
    # Written in parts, since a child's peak memory counts that of the process that starts it.
    rng = random.Random(1)
    file.write(b'{"tables":[[["a","int",[')
    for start in range(0, cells, AT_ONCE):
        numbers = (str(rng.randint(-9999999, 9999999)) for _ in range(min(AT_ONCE, cells - start)))
        file.write((',' if start else '').encode() + ','.join(numbers).encode())
    file.write(b']]]],"exprs":[["col","a"],["int",1],["gt",0,1]],'
               b'"nodes":[["scan",0,null],["filter",0,2],["sink",1]],"root":%d}' % root)
    file.flush()


def measure(program, file):
    best, memory, ended = None, 0, 0
    for _ in range(3):
        file.seek(0)
        start = time.monotonic()
        process = subprocess.Popen([program, 'run'], stdin=file, stdout=subprocess.DEVNULL, stderr=subprocess.DEVNULL)
        _, status, usage = os.wait4(process.pid, 0)
        seconds = time.monotonic() - start
        process.returncode = ended = os.waitstatus_to_exitcode(status)
        best = seconds if best is None else min(best, seconds)
        memory = max(memory, usage.ru_maxrss)
    return best, memory / 1024, ended


def main():
    program = sys.argv[1]
    cells = int(sys.argv[2]) if len(sys.argv) > 2 else 3_000_000
    for name, root in (('answered', 2), ('read and refused', 3)):
        with tempfile.TemporaryFile() as file:
            write_document(file, cells, root)
            size = file.tell()
            seconds, megabytes, status = measure(program, file)
        print('%s: %d bytes, %.2f s, %.0f MB, status %d' % (name, size, seconds, megabytes, status))


if __name__ == '__main__':
    main()
