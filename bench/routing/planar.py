"""Prints the planar network of bench/plans/planar.py, read from the input, in the lines of sample.py."""
import sys

print("planar")
for line in sys.stdin:
    words = line.split()
    if len(words) > 6 and words[0][0] in "ld" and words[1] == "(":
        ends = f"{words[0]} {words[2]} {words[3]}"
        if words[0].startswith("l"):
            large, small = words[-2], words[-4]
            print(f"{ends} {float(words[-5]):.3f} for {float(small):.3f}, {float(words[-3]):.3f} for {float(large):.3f}")
        else:
            print(f"{ends} {float(words[-2]):.3f}")
