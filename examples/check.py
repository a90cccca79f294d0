"""Checks the first block of a file, samples/run-a.bin if none is named, with the shared object of `make install`."""
import ctypes
import sys

check = ctypes.CDLL("libfadc250.so.2").fadc250_check
check.argtypes = [ctypes.c_char_p, ctypes.c_size_t]
check.restype = ctypes.c_uint64

with open(sys.argv[1] if len(sys.argv) > 1 else "samples/run-a.bin", "rb") as file:
    data = file.read()
answer = check(data, len(data))
if answer >> 32:
    print("refused", answer >> 32, "at word", answer & 0xFFFFFFFF)
else:
    print(answer, "words")
