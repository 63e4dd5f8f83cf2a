"""Holds gff3_reason to the header's table of refusals, number by number and word by word: python3 reasons.py LIBRARY HEADER."""

import re
import sys
from ctypes import CDLL, c_char_p, c_uint64

reason = CDLL(sys.argv[1]).gff3_reason
reason.restype, reason.argtypes = c_char_p, [c_uint64]

with open(sys.argv[2], encoding="ascii") as file:
    table = re.findall(r"GFF3_REFUSED_\w+ = (\d+),? +/\* (.*?) \*/", file.read(), re.DOTALL)
words = {int(number): " ".join(text.split()) for number, text in table}

# The numbers have gaps: every other one up to 99 is no refusal.
expected = {number: "unknown refusal" for number in range(100)} | {0: "not refused"} | words
answered = {number: (reason(number) or b"NULL").decode() for number in expected}
amiss = {number: text for number, text in answered.items() if expected[number] != text}
for number, text in amiss.items():
    print(f"reasons.py: {number}: gff3_reason says '{text}', the header '{expected[number]}'")
sys.exit(1 if amiss or not words else 0)
