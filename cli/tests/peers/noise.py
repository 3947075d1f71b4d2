"""noise.py SEED COUNT: so many bytes without a pattern, the same for a seed each time."""
import random
import sys

sys.stdout.buffer.write(random.Random(int(sys.argv[1])).randbytes(int(sys.argv[2])))
