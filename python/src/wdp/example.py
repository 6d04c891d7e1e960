"""The worked example: two lots of A and one of B, three bidders, and what is left out in turn.

`INPUT` is its input, `SOLUTIONS` has a solution for each group, `CERTIFICATES` one that shows each
of them optimal, and `UNIQUE` one that shows the winners of group 1 to be the only ones.
"""

INPUT = """\
%rules
rules,1,1,,
category,A,2,10,1
category,B,1,5,1
bidder,Alpha,9,2,
bidder,Beta,9,1,
bidder,Gamma,9,1,
%form
Alpha,A,B
30,1,0
50,2,1
28,1,1
%form
Beta,A,B
20,1,0
45,3,0
%form
Gamma,A,B
12,0,1
%groups
-
Alpha
Beta
Beta+Gamma
"""

SOLUTIONS = ("X1_1 1\nX2_1 1\nX3_1 1\n", "X2_1 1\nX3_1 1\n", "X1_2 1\n", "X1_2 1\n")

CERTIFICATES: tuple[str, ...] = (
    "bound 1 B1 10 C1 20 C2 12\n",
    "bound 1 B2 20 B3 12\n",
    "bound 1 B1 38 C2 12\n",
    "bound 1 B1 50\n",
)

UNIQUE = "bound 1 1 B1 10 C1 19 C2 11\n"
