"""A file on standard output in pieces of uneven length, with pauses between the first ones."""
import sys
import time

data = open(sys.argv[1], "rb").read()
at, piece = 0, 1
while at < len(data):
    sys.stdout.buffer.write(data[at : at + piece])
    sys.stdout.buffer.flush()
    if piece < 2000:
        time.sleep(0.01)
    at, piece = at + piece, piece * 2 + 1
