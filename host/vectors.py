"""The vector files, and what the second program lists of them.

vectors.py write ORACLE   writes the program's stdin, each file after its length in two bytes, and its stdout anew
vectors.py check ORACLE   fails where what is stored differs from what would be written
"""
import pathlib
import subprocess
import sys

KINDS = {"small": 120, "contended": 60, "malformed": 60, "limits": 60, "large": 3}
FILES = pathlib.Path("crates/vectors/stdin")
LISTINGS = pathlib.Path("crates/vectors/stdout")


def record(tag, body=b""):
    return bytes([tag]) + len(body).to_bytes(2, "big") + body


def keys(count):
    return record(0x01, b"".join((10 * k).to_bytes(4, "big") for k in range(count)))


def group(sites, mask):
    return record(0x02, bytes([sites]) + mask.to_bytes(8, "big"))


def txn(reads, writes):
    body = bytes([len(reads)]) + bytes(reads) + bytes([len(writes)])
    return record(0x03, body + b"".join(bytes([k]) + x.to_bytes(4, "big") for k, x in writes))


END = record(0x0F)


def runs():
    """Document 01's cases that are run: 16 and 17 sites; 8 and 9 reads; 60,000 and 60,001 bytes."""
    for sites in (16, 17):
        steps = b"".join(record(0x10, bytes([0, 0, 15])) + record(0x11, b"\0") for _ in range(2))
        yield keys(2) + group(8, 3) + group(sites - 8, 2) + txn([1], [(0, 7)]) + END + steps + record(0x15)
    for reads in (8, 9):
        steps = b"".join(record(0x10, bytes([0, i, 1])) for i in range(9)) + record(0x11, b"\0")
        yield keys(10) + group(2, 1023) + txn(range(reads), [(9, 5)]) + END + steps + record(0x15)
    for length in (60000, 60001):
        file = keys(1) + group(1, 1) + txn([], [(0, 3)]) + END
        file += record(0x11, b"\0")
        while len(file) + 4 <= length:
            file += record(0x12, b"\0")
        while len(file) + 3 <= length:
            file += record(0x15)
        yield file.ljust(length, b"\x15")
    # one that ends with its last byte, all of it single steps
    file = keys(1) + group(1, 1) + END
    file += record(0x10, bytes([0, 0, 0])) * ((60000 - len(file)) % 4 // 2)
    while len(file) + 4 <= 60000:
        file += record(0x12, b"\0")
    yield file


def files(oracle):
    yield from runs()
    for kind, count in KINDS.items():
        for seed in range(count):
            yield subprocess.run([oracle, "generate", kind, str(seed)], check=True, capture_output=True).stdout


def main():
    way, oracle = sys.argv[1:]
    bytes_of, listings = b"", b""
    for file in files(oracle):
        bytes_of += len(file).to_bytes(2, "big") + file
        listings += subprocess.run([oracle, "list"], input=file, check=True, capture_output=True).stdout
    if way == "write":
        FILES.write_bytes(bytes_of)
        LISTINGS.write_bytes(listings)
    elif FILES.read_bytes() != bytes_of or LISTINGS.read_bytes() != listings:
        sys.exit("the stored vectors are not the second program's")


main()
