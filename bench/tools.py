"""What the scripts of this folder have in common that ask Debian's `yosys` (0.23-6) and `berkeley-abc` (1.01+20221019) for multipliers.

Verilog, carries of adders, optimisations, and graphs, each made once in the current folder.
"""
import os
import subprocess
import sys

from common import write

VERILOG = """module mult ( a, b, p );
  input [%d:0] a, b;
  output [%d:0] p;
  assign p = a * b;
endmodule
"""

# The same with a claim's declarations and sum. The product stands alone, since ABC leaves out what is added within one assignment.
VERILOG_OF_CLAIM = """module mult ( %s, p );
  input %s [%d:0] a;
  input %s [%d:0] b;
%s  output %s [%d:0] p;
%sendmodule
"""

# Yosys' cell of all carries of an adder, from the positions' propagates P and generates G and the carry in.
CARRIES = """(* techmap_celltype = "$lcu" *)
module _80_lcu (P, G, CI, CO);
  parameter WIDTH = 2;
  input [WIDTH-1:0] P, G;
  input CI;
  output [WIDTH-1:0] CO;
  wire [1023:0] _TECHMAP_DO_ = "proc; opt -fast";
  integer i, d;
  reg [WIDTH-1:0] p, g;
  always @* begin
    p = P;
    g = G;
    g[0] = G[0] | (P[0] & CI);
    %s  end
  assign CO = g;
endmodule
"""


def join(below):
    """Position i is joined with those that end at `below`."""
    return "begin g[i] = g[i] | (p[i] & g[{0}]); p[i] = p[i] & p[{0}]; end\n".format(below)


RIPPLE = "for (i = 1; i < WIDTH; i = i + 1) " + join("i-1")
KOGGE = "for (d = 1; d < WIDTH; d = d * 2) for (i = WIDTH-1; i >= d; i = i - 1) " + join("i-d")
SKLANSKY = "for (d = 1; d < WIDTH; d = d * 2) for (i = d; i < WIDTH; i = i + 1) if ((i/d) % 2 == 1) " + join("i/d*d-1")
HAN_CARLSON = (
    ("for (i = 1; i < WIDTH; i = i + 2) " + join("i-1"))
    + ("for (d = 2; d < WIDTH; d = d * 2) for (i = (WIDTH-2)/2*2+1; i > d; i = i - 2) " + join("i-d"))
    + ("for (i = 2; i < WIDTH; i = i + 2) " + join("i-1"))
)

# ABC's optimisations; the second and third are those that its file abc.rc has under these names.
OPTIMISATIONS = {
    "dc2": "dc2",
    "resyn3": "balance; resub; resub -K 6; balance; resub -z; resub -z -K 6; balance; resub -z -K 5; balance",
    "compress2rs": "balance -l; resub -K 6 -l; rewrite -l; resub -K 6 -N 2 -l; refactor -l; resub -K 8 -l; balance -l;"
    " resub -K 8 -N 2 -l; rewrite -l; resub -K 10 -l; rewrite -z -l; resub -K 10 -N 2 -l; balance -l; resub -K 12 -l;"
    " refactor -z -l; resub -K 12 -N 2 -l; rewrite -z -l; balance -l",
    "dch": "dch",
}


def build(words):
    """Runs a tool; where that fails, ends with what it printed."""
    done = subprocess.run(words, stdout=subprocess.PIPE, stderr=subprocess.STDOUT, text=True)
    if done.returncode != 0:
        sys.exit(done.stdout)


def verilog_of(a, b, sign, add):
    """The module that computes a claim for operands of a and of b bits, with the inputs in the order of their names."""
    if not add:
        return VERILOG_OF_CLAIM % ("a, b", sign, a - 1, sign, b - 1, "", sign, a + b - 1, "  assign p = a * b;\n")
    addend = "  input %s [%d:0] c;\n" % (sign, a + b - 1)
    body = "  wire %s [%d:0] t;\n  assign t = a * b;\n  assign p = t + c;\n" % (sign, a + b - 1)
    return VERILOG_OF_CLAIM % ("a, b, c", sign, a - 1, sign, b - 1, addend, sign, a + b - 1, body)


def summed(terms, pairwise):
    """A sum of terms, two by two, or one after the other."""
    while len(terms) > 1 and pairwise:
        terms = [" + ".join(terms[k : k + 2]) for k in range(0, len(terms), 2)]
        terms = ["(%s)" % term for term in terms]
    for term in terms[1:]:
        terms = ["(%s + %s)" % (terms[0], term)]
    return terms[0]


def verilog_of_rows(bits, sign, add, pairwise):
    """The module that sums a row for each bit of b; of a signed b the row of the highest bit is taken away."""
    upper = "{%d{a[%d]}}" % (bits, bits - 1) if sign else "%d'b0" % bits
    rows = ["((b[%d] ? {%s, a} : %d'b0) << %d)" % (k, upper, 2 * bits, k) for k in range(bits)]
    if sign:
        rows[-1] = "(~%s)" % rows[-1]
        rows.append("%d'b1" % (2 * bits))
    ports, addend = "a, b", ""
    if add:
        ports, addend = "a, b, c", "  input [%d:0] c;\n" % (2 * bits - 1)
        rows.append("c")
    body = "  assign p = %s;\n" % summed(rows, pairwise)
    return VERILOG_OF_CLAIM % (ports, "", bits - 1, "", bits - 1, addend, "", 2 * bits - 1, body)


def words_of_rows(bits, sign, add, pairwise):
    """The same module with an operation in each assignment, as ABC reads it."""
    all_bits, lines, rows = 2 * bits, ["  assign z = %d'b%s;\n" % (bits, "0" * bits)], []

    def wire(value, width=all_bits):
        lines.append("  wire [%d:0] w%d;\n  assign w%d = %s;\n" % (width - 1, len(lines), len(lines), value))
        return "w%d" % (len(lines) - 1)

    def repeated(bit, count):
        return "{ %s }" % ", ".join([wire(bit, 1)] * count)

    longer = wire("{ %s, a }" % (wire(repeated("a[%d]" % (bits - 1), bits), bits) if sign else "z"))
    for k in range(bits):
        rows.append(wire("%s & %s" % (wire("%s << %d" % (longer, k)) if k else longer, wire(repeated("b[%d]" % k, all_bits)))))
    if sign:
        rows[-1] = wire("~%s" % rows[-1])
        rows.append(wire("%d'b%s1" % (all_bits, "0" * (all_bits - 1))))
    rows += ["c"] * add
    while len(rows) > 1:
        paired = rows if pairwise else rows[:2]
        rows = [wire(" + ".join(paired[k : k + 2])) for k in range(0, len(paired), 2)] + rows[len(paired) :]
    body = "  wire [%d:0] z;\n%s  assign p = %s;\n" % (bits - 1, "".join(lines), rows[0])
    ports, addend = ("a, b, c", "  input [%d:0] c;\n" % (all_bits - 1)) if add else ("a, b", "")
    return VERILOG_OF_CLAIM % (ports, "", bits - 1, "", bits - 1, addend, "", all_bits - 1, body)


def made(name, bits, tool, how, verilog="", flow="synth"):
    """The graph of a tool's multiplier, which has all bits of a before those of b, and those before the addend's."""
    path = "%s-%s.aig" % (name.replace(" ", ""), bits)
    if os.path.exists(path):
        return path
    write("mult.v", verilog or VERILOG % (bits - 1, 2 * bits - 1))
    if tool == "abc":
        build(["berkeley-abc", "-c", "%%read mult.v; %%blast %s; &put; write_aiger new.aig" % how])
    else:
        synth = flow + " -flatten -top mult"
        if how:
            write("carries.v", CARRIES % how)
            synth += " -run begin:fine; techmap -map +/techmap.v -map carries.v; synth -run fine:"
        build(["yosys", "-q", "-p", "read_verilog mult.v; %s; aigmap; write_aiger new.aig" % synth])
    os.rename("new.aig", path)
    return path
