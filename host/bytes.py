"""The bytes of a file written in hexadecimal, with comments from # to the end of a line, on standard output."""
import sys

text = open(sys.argv[1], encoding="utf-8").read()
sys.stdout.buffer.write(bytes.fromhex("".join(line.split("#")[0] for line in text.splitlines())))
