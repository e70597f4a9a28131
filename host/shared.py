"""Calls the services as README.md tells programs in Python to: shared.py LIBRARY TABLE. Check, conflict_counts and S on the table that paper 01 prints;
pack, unpack and C on four fragments with grades. Prints the number of calls."""
import ctypes
import sys

library = ctypes.CDLL(sys.argv[1])
calls = 0


def call(name, n, *buffers):
    """What a service returns; each buffer goes as a pointer and a length."""
    global calls
    calls += 1
    service = getattr(library, "haplotypes_" + name)
    service.restype = ctypes.c_uint64
    return service(ctypes.c_size_t(n), *(word for buffer in buffers for word in (buffer, ctypes.c_size_t(len(buffer)))))


def numbers(kind, *given):
    return (kind * len(given))(*given)


def dirty(kind, length):
    return numbers(kind, *[7] * length)


def expect(found, expected):
    if found != expected:
        sys.exit(f"host: from Python: {found}, expected {expected}")


byte, work = ctypes.c_uint8, dirty(ctypes.c_uint16, 32768)
with open(sys.argv[2], "rb") as file:
    table = numbers(byte, *file.read())
answer, counts = dirty(byte, 15), dirty(byte, 9)
# no; 3 fragments and their 3 x 3 counts; 1 101 A#B B#A 121 0,0,0
expect((call("check", 3, table, answer), list(answer)), (1, [7] * 15))
expect((call("conflict_counts", 3, table, counts), list(counts)), (3, [0, 1, 1, 1, 0, 2, 1, 2, 0]))
expect((call("least_snp_removal", 3, table, work, answer), list(answer), any(work)), (1, [1, 0, 1, 1, 3, 2, 2, 3, 1, 1, 2, 1, 0, 0, 0], False))

# AAA, BAA, BAA, -BB of grades 15, 0, 0 and 15: C turns the two Bs of column 0, whose fragments weigh 1, and not the A, whose fragment weighs 60
letters, names, grades = [1, 1, 1, 2, 1, 1, 2, 1, 1, 0, 2, 2], [10, 11, 12, 13], [15, 0, 0, 15]
table, corrected, work, answer = dirty(byte, 128), dirty(byte, 128), dirty(ctypes.c_uint16, 32768), dirty(byte, 17)
cells, tags, carried = dirty(byte, 12), dirty(ctypes.c_uint32, 4), dirty(byte, 4)
expect(call("pack", 3, numbers(byte, *letters), numbers(ctypes.c_uint32, *names), numbers(byte, *grades), table), 4)
# 2 111 AAA -BB 1112 0,0,0,0
total = call("least_corrections", 3, table, work, answer, corrected)
expect((total, list(answer), any(work)), (2, [1, 1, 1, 1, 1, 1, 0, 2, 2, 1, 1, 1, 2, 0, 0, 0, 0], False))
expect((call("unpack", 3, corrected, cells, tags, carried), list(cells), list(tags), list(carried)), (4, [1, 1, 1] * 3 + [0, 2, 2], names, grades))
print(calls)
