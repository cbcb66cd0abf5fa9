"""python3 bench/csv_text.py PLAN_TOOL [ROWS]: processor seconds of the CSV text of a table of whole numbers, ids and texts of 8 letters
(1,000,000 rows if not given), and the peak memory of the program that writes it.

The program answers a document of a scan and a sink, and then the same document with a slice of no rows between the two. Both read the
same JSON, so the difference is about the share of making and writing the text."""
import random
import string
import sys
import tempfile

from tables import measure

AT_ONCE = 10_000
CUT = {False: '["scan",0,null],["sink",0]],"root":1', True: '["scan",0,null],["slice",0,0,0],["sink",1]],"root":2'}


def write_column(file, name, kind, rows, cell):
    # Written in parts, since a child's peak memory counts that of the process that starts it.
    file.write(b'["%s","%s",[' % (name, kind))
    for start in range(0, rows, AT_ONCE):
        cells = ','.join(cell(row) for row in range(start, min(start + AT_ONCE, rows)))
        file.write((',' if start else '').encode() + cells.encode())
    file.write(b']]')


def write_document(file, rows, is_cut):
    rng = random.Random(1)
    file.write(b'{"tables":[[')
    write_column(file, b'number', b'int', rows, lambda row: str(rng.randint(-2**31, 2**31 - 1)))
    file.write(b',')
    write_column(file, b'id', b'idx', rows, str)
    file.write(b',')
    write_column(file, b'text', b'str', rows, lambda row: '"%s"' % ''.join(rng.choices(string.ascii_lowercase, k=8)))
    file.write(b']],"exprs":[],"nodes":[%s}' % CUT[is_cut].encode())
    file.flush()


def measured(program, rows, is_cut):
    with tempfile.TemporaryFile() as file:
        write_document(file, rows, is_cut)
        seconds, megabytes = measure([program, 'run', '--serial'], file)
        return file.tell(), seconds, megabytes


def main():
    program = sys.argv[1]
    rows = int(sys.argv[2]) if len(sys.argv) > 2 else 1_000_000
    size, whole, memory = measured(program, rows, False)
    _, cut, _ = measured(program, rows, True)
    print('%d rows, a document of %d bytes: %.3f s and %.0f MB in all, %.3f s with no rows written' % (rows, size, whole, memory, cut))
    print('CSV text: %.3f s' % max(whole - cut, 0))


if __name__ == '__main__':
    main()
