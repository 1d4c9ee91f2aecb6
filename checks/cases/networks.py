"""Networks that several topics ask about."""

# A protein that is phosphorylated at two sites by one enzyme, and dephosphorylated by another.
TWO_SITES = """\
# two-site futile cycle
S0 + K <-> KS0
KS0 -> S1 + K
S1 + K <-> KS1
KS1 -> S2 + K
S2 + F <-> FS2
FS2 -> S1 + F
S1 + F <-> FS1
FS1 -> S0 + F
"""

# Chains in which a molecule becomes 99 of the next species.
NINE = """\
X1 -> 99X2
X2 -> 99X3
X3 -> 99X4
X4 -> 99X5
X5 -> 99X6
X6 -> 99X7
X7 -> 99X8
X8 -> 99X9
X9 -> 99X10
"""

ELEVEN = """\
X1 -> 99X2
X2 -> 99X3
X3 -> 99X4
X4 -> 99X5
X5 -> 99X6
X6 -> 99X7
X7 -> 99X8
X8 -> 99X9
X9 -> 99X10
X10 -> 99X11
X11 -> 99X12
"""

TWELVE = """\
X1 -> 99X2
X2 -> 99X3
X3 -> 99X4
X4 -> 99X5
X5 -> 99X6
X6 -> 99X7
X7 -> 99X8
X8 -> 99X9
X9 -> 99X10
X10 -> 99X11
X11 -> 99X12
0 -> Y
"""

# Ten such steps between a source and a sink: what comes out is 99^10 times what goes in.
THROUGH = """\
0 -> X1
X1 -> 99X2
X2 -> 99X3
X3 -> 99X4
X4 -> 99X5
X5 -> 99X6
X6 -> 99X7
X7 -> 99X8
X8 -> 99X9
X9 -> 99X10
X10 -> 99X11
X11 -> 0
"""

# Edelstein's network, whose confluence vector has a signal only for its negative.
EDELSTEIN = "A <-> 2A\nA + B <-> C\nC <-> B\n"
