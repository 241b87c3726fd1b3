"""The lettered cases as the claim of the crate `cases` has them, against a program that lists files."""
import re
import subprocess
import sys

CLAIM = "crates/cases/specs/Cases.antt"
PAIR = re.compile(r'file = "(.*?)";\s*gives = "(.*?)";')

program = sys.argv[1]
pairs = PAIR.findall(open(CLAIM, encoding="utf-8").read())
if len(pairs) != 11:
    sys.exit(f"{len(pairs)} cases in the claim, not 11")
for letter, (file, gives) in zip("ABCDEFGHIJK", pairs):
    said = subprocess.run([program, "list"], input=bytes.fromhex(file), capture_output=True, check=True).stdout
    if said != gives.replace("\\n", "\n").encode():
        sys.exit(f"case {letter}: the claim and {program} differ:\n{said.decode()}")
