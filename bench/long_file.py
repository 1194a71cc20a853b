"""Writes a long file that is refused at its end, after all of it was read: long_file.py KIND MIB

KIND says what the file is, MIB about how many MiB it has, 256 at most:
  asn        an asn file of 1,000 rows and columns, whose last line is at fault
  square     a square file of side 1,000, with too many tokens behind its cells
  documents  documents, one after the other, with a byte changed near the end
"""
import sys

SIDE = 1000
LONGEST = 268435456


def write_asn(length, out):
    nodes = "".join(f"n {i}\n" for i in range(1, SIDE + 1))
    arcs = "".join(f"a {i} {j} {i * j % 999983}\n"
                   for i in range(1, SIDE + 1) for j in range(SIDE + 1, 2 * SIDE + 1))
    count = max(1, length // len(arcs))
    out.write(f"p asn {2 * SIDE} {count * SIDE * SIDE}\n{nodes}")
    out.writelines(arcs for _ in range(count))
    out.write("a 1 1 1\n")


def write_square(length, out):
    row = " ".join(str(j * 7919 % 1000003) for j in range(SIDE)) + "\n"
    text = f"{SIDE}\n" + row * SIDE
    out.write(text + "1 " * ((length - len(text)) // 2))


def write_documents(length, out):
    cells = "".join(f"{row} {row % 97 + 1}\n" for row in range(1, SIDE + 1))
    one = ("assignment 1\ncommand solve\nobjective bottleneck\nstatus best\nvalue -123456789\n"
           f"cells {SIDE}\n{cells}proof below 1 22 333 4444\nend\n")
    none = "assignment 1\ncommand solve\nobjective bottleneck-max\nstatus none\nhall 7 8 9\nend\n"
    count = length // len(one + none)
    out.writelines(one + none for _ in range(count - 1))
    out.write(one + none[:-6] + "x" + none[-5:])


write = {"asn": write_asn, "square": write_square, "documents": write_documents}[sys.argv[1]]
write(min(int(sys.argv[2]) << 20, LONGEST), sys.stdout)
