"""The ring of two states, and games with the evidence of both players in them, as they were worked out by hand: tests/answers has them written for systems
and formulas, and tests/commands has them solved and verified."""

# From its first state to its second by `a`, and back by `b`.
RING = 'des (0,2,2)\n(0,"a",1)\n(1,"b",0)\n'

# The game of `<a>true` on the ring of two states, and the evidence of both players in it.
STEP = 'parity 5;\n0 0 0 0 "true";\n1 1 0 1 "false";\n2 0 0 5 "0,0";\n3 0 0 0 "0,1";\n4 0 0 1 "1,0";\n5 0 0 0 "1,1";\n'
EVEN_OF_STEP = "evidence even\n0 0 (0)\n2 5 (0)\n3 0 (0)\n5 0 (0)\n"
ODD_OF_STEP = "evidence odd\n1 - (0)\n4 - (1)\n"

# That of `nu X. mu Y. (<a>X || <b>Y)` on it.
OFTEN_A = """parity 15;
0 0 0 0 "true";
1 1 0 1 "false";
2 2 0 3 "0,0";
3 1 0 4 "0,1";
4 0 0 5,7 "0,2";
5 0 0 13 "0,3";
6 0 0 2 "0,4";
7 0 0 1 "0,5";
8 0 0 3 "0,6";
9 2 0 10 "1,0";
10 1 0 11 "1,1";
11 0 0 12,14 "1,2";
12 0 0 1 "1,3";
13 0 0 9 "1,4";
14 0 0 8 "1,5";
15 0 0 10 "1,6";
"""
EVEN_OF_OFTEN_A = """evidence even
0 0 (0)
2 3 (0)
3 4 (1)
4 5 (0)
5 13 (0)
6 2 (0)
8 3 (1)
9 10 (0)
10 11 (2)
11 14 (1)
13 9 (0)
14 8 (1)
15 10 (2)
"""
ODD_OF_OFTEN_A = "evidence odd\n1 - (0,0)\n7 - (0,1)\n12 - (0,1)\n"

# That of `nu X. (<a>X && mu Y. <b>Y)` where `b` stays in the second state, with dependent priorities: that of the inner fixpoint is the greatest.
APART = """parity 15;
0 0 0 0 "true";
1 1 0 1 "false";
2 0 0 3 "0,0";
3 0 1 4,6 "0,1";
4 0 0 12 "0,2";
5 0 0 2 "0,3";
6 1 0 7 "0,4";
7 0 0 1 "0,5";
8 0 0 6 "0,6";
9 0 0 10 "1,0";
10 0 1 11,13 "1,1";
11 0 0 1 "1,2";
12 0 0 9 "1,3";
13 1 0 14 "1,4";
14 0 0 15 "1,5";
15 0 0 13 "1,6";
"""
EVEN_OF_APART = "evidence even\n0 0 (0)\n"
ODD_OF_APART = """evidence odd
1 - (0)
2 - (2)
3 6 (1)
4 - (4)
5 - (3)
6 - (0)
7 - (1)
8 - (1)
9 - (2)
10 13 (1)
11 - (1)
12 - (3)
13 - (0)
14 - (2)
15 - (1)
"""
