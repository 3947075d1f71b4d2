"""ole.py FILE SUM: times olefile on the file of tests/bench's last table, which lies in memory, and prints a row of a table
in Markdown. The bytes of all reads have to add up to the sum."""
import io
import statistics
import sys
import time

import olefile

ROUNDS, STREAMS, READS, BYTES = 7, 5000, 1000, 1000


def path(i):
    """The same stream for the same i as in src/bench/many.rs."""
    stream = i * 1237 % STREAMS
    return [f"storage {stream // 100 * 100:05}", f"stream {stream:05}"]


image = open(sys.argv[1], "rb").read()
opens, reads = [], []  # the processor's times, as in src/bin/bench/times.rs
for _ in range(ROUNDS):
    start = time.process_time()
    ole = olefile.OleFileIO(io.BytesIO(image))
    opened = time.process_time()
    out = [ole.openstream(path(i)).read(BYTES) for i in range(READS)]
    done = time.process_time()
    opens.append(opened - start)
    reads.append(done - opened)
    ole.close()
if sum(map(sum, out)) != int(sys.argv[2]):
    sys.exit("ole.py: reads other bytes")
row = [f"{1e3 * statistics.median(times):.3f}" for times in (opens, reads)]
python = ".".join(map(str, sys.version_info[:2]))
print(f"| olefile {olefile.__version__}, Python {python} | {row[0]} | {row[1]} |")
