"""How long zlib's checksum takes: prints what checksum.txt prints, of the same bytes."""
import sys
import time
import zlib

mib = int(sys.argv[1])
block = bytearray()
state = 1
for _ in range(65_536):
    state = (state * 1_664_525 + 1_013_904_223) % 2**32
    block.append(state >> 24)
data = bytes(block) * (16 * mib)
least = None
for _ in range(9):
    start = time.perf_counter()
    crc = zlib.crc32(data)
    taken = time.perf_counter() - start
    least = taken if least is None else min(least, taken)
print(f"zlib {mib} MiB: {crc:08x} in {int(least * 1_000_000)} us")
