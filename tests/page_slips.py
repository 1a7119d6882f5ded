"""Slips in listed solutions, in INT, in counts and in the places of lines, and numbers as other programs write them: what
`vipr explain --long` says of each. tests/long.py makes them in the small problems.
"""

# The problem, what is replaced by what, and what the page says.
SLIPS = [
    # a solution: the value of another variable, a sign, a variable left out, another number
    (
        "fixed_charge",
        "2 1 5 3 1",
        "2 1 5 2 1",
        "with 1 at y2 (variable 3) in place of y1 (variable 2) all constraints hold, and",
    ),
    (
        "fixed_charge",
        "2 1 5 3 1",
        "1 1 5",
        "with 1 in place of 0 at y2 (variable 3) all constraints hold, and the objective is 10, the primal bound",
    ),
    (
        "fixed_charge",
        "2 1 5 3 1",
        "2 0 5 2 1",
        "with each index of the solution 1 more all constraints hold, and the objective is 10",
    ),
    (
        "diet",
        "opt 2 0 3 1 2",
        "opt 2 0 2 1 3",
        "with the values of bread and milk exchanged all constraints hold",
    ),
    (
        "diet",
        "opt 2 0 3 1 2",
        "opt 2 0 -3 1 2",
        "with 3 in place of -3 at bread (variable 0) all constraints hold",
    ),
    (
        "diet",
        "opt 2 0 3 1 2",
        "opt 2 0 3 1 1",
        "with 2 in place of 1 at milk (variable 1) all constraints hold",
    ),
    (
        "set_cover",
        "best 2 0 1 1 1",
        "best 2 0 1 2 1",
        "with 1 at x2 (variable 1) in place of x3 (variable 2) all constraints hold",
    ),
    (
        "set_cover",
        "best 2 0 1 1 1",
        "best 2 1 1 2 1",
        "with each index of the solution 1 less all constraints hold, and the objective is 7, the primal bound: do its indices count from 1?",
    ),
    # values that are rounded, or of floating point
    (
        "diet",
        "range 16/5 16/5\nSOL 1\nopt 2 0 3 1 2",
        "range 16/5 4\nSOL 1\nopt 2 0 3 1 1999999/1000000",
        "is a value rounded, as one of floating point is? Write exact fractions",
    ),
    (
        "parity",
        "RTP infeas\nSOL 0",
        "RTP range -inf inf\nSOL 1 s 1 0 4503599627370497/4503599627370496",
        "write a whole value, or take the variable out of INT. Is 1 meant? It is 1/4503599627370496 off",
    ),
    # a number of floating point in a row
    (
        "diet",
        "protein G 8 2 0 2",
        "protein G 8 2 0 9007199254740991/4503599627370496",
        "with 2 in place of 9007199254740991/4503599627370496 at bread this constraint holds: is that a number of floating point? Its denominator is a power of 2",
    ),
    # INT counted from 1, or one too small
    (
        "one_machine",
        "INT 1\n2\n",
        "INT 1\n3\n",
        "that of the last variable is 2. Does INT count variables from 1? Then each of its indices is 1 too large",
    ),
    (
        "fixed_charge",
        "INT 2 2 3",
        "INT 2 1 2",
        "is each index after INT 1 too small? With each of them 1 more all variables of this row are integer ones",
    ),
    # counts
    (
        "set_cover",
        "VAR 3",
        "VAR 2",
        "`VAR` has 3 names, and its count is 2: is that wrong, or is a space in a name?",
    ),
    (
        "set_cover",
        "INT 3 0 1 2",
        "INT 1 0 1 2",
        "`INT` has 3 indices, and its count is 1: is 3 meant?",
    ),
    (
        "set_cover",
        "CON 9 6",
        "CON 3 6",
        "`CON` has 9 constraints, and its count is 3: is 9 meant? It counts all constraints, bounds included",
    ),
    (
        "one_machine",
        "SOL 0\n",
        "SOL 0\ns 1 0 1\n",
        "`SOL` has 1 solution, and its count is 0: is 1 meant?",
    ),
    ("set_cover", "DER 5", "DER 3", "`DER` has 5 derivations, and its count is 3: is 5 meant?"),
    (
        "set_cover",
        "CON 9 6",
        "CON 11 6",
        "`RTP` was read as a name, and 9 constraints before it: is the count after `CON`, 11, too large",
    ),
    (
        "set_cover",
        "VAR 3",
        "VAR 6",
        "`INT` was read as a name, and 3 variables before it: is the count after `VAR`, 6, too large",
    ),
    (
        "set_cover",
        "INT 3 0",
        "INT 4 0",
        "`OBJ` is the keyword of a section, after 3 indices: is the count after `INT`, 4, too large?",
    ),
    (
        "knapsack",
        "cap L 6 3 0",
        "cap L 6 2 0",
        "3 pairs in line 12 after the count of coefficients, 2: is 3 meant, or is a part of the line lost?",
    ),
    (
        "knapsack",
        "cap L 6 3 0",
        "cap L 6 6 0",
        "6 numbers in line 12 after the count of coefficients, 6: is 3 meant? A count is of pairs, INDEX COEFFICIENT; or are the indices left out?",
    ),
    (
        "knapsack",
        "cap L 6 3 0 3 1 4 2 2",
        "cap L 6 3 0 3 1 4",
        "2 pairs in line 12 after the count of coefficients, 3: is 2 meant",
    ),
    (
        "knapsack",
        "cap L 6 3 0 3 1 4 2 2",
        "cap L 6 3 0 3 1 4 2",
        "5 numbers in line 12 after the count of coefficients, 3: is a number lost or one too many, or the count left out?",
    ),
    (
        "knapsack",
        "cap L 6 3 0 3 1 4 2 2",
        "cap L 6 3 3 4 2",
        "3 numbers in line 12 after the count of coefficients, 3: are the indices left out? A pair is INDEX COEFFICIENT",
    ),
    (
        "knapsack",
        "bc 2 1 1 2 1",
        "bc 3 1 1 2 1",
        "2 pairs in line 21 after the count of values, 3: is 2 meant",
    ),
    (
        "one_machine",
        "lin 4 7",
        "lin 3 7",
        "4 pairs in line 23 after the count of entries, 3: is 4 meant",
    ),
    (
        "one_machine",
        "y0 L 0 1 2 1",
        "y0 L 0 0 2 1",
        "1 pair in line 21 after the count of coefficients, 0: is 1 meant",
    ),
    ("diet", "} -1", "} -1 more", "make the count after `DER` larger, or remove all from here on"),
    (
        "diet",
        "DER 1",
        "DRE 1",
        "is the count after `SOL` too small, or that of a solution's values?",
    ),
    (
        "diet",
        "RTP",
        "RPT",
        "is the first count after `CON` too small? It counts all constraints, bounds included; or is the last",
    ),
    # lines and sections in another place, and lines that are cut
    (
        "knapsack",
        "INT 3\n0 1 2\nOBJ max\n3 0 10 1 13 2 7\n",
        "OBJ max\n3 0 10 1 13 2 7\nINT 3\n0 1 2\n",
        "`INT` is in line 9: is it to be in front of `OBJ`? The order is VER, VAR, INT, OBJ, CON, RTP, SOL, DER",
    ),
    (
        "knapsack",
        "OBJ max\n3 0 10 1 13 2 7\n",
        "3 0 10 1 13 2 7\nOBJ max\n",
        "with lines 9 and 10 exchanged the text can be read on: are they in the wrong order?",
    ),
    # a vector whose entries aren't added up: another order of the lines doesn't mend it
    (
        "knapsack",
        "cap L 6",
        "twice L 6 2 0 1 0 1\ncap L 6",
        "a variable may be in a vector once: are its coefficients to be added up?",
    ),
    (
        "knapsack",
        "c_up L 1 1 2 1\nRTP range 20 20\n",
        "RTP range 20 20\nc_up L 1 1 2 1\n",
        "with lines 18 and 19 exchanged the text can be read on",
    ),
    (
        "knapsack",
        "VER 1.0\n",
        "Reading knapsack.mps\nVER 1.0\n",
        "`VER` is in line 3: a certificate begins there, but for comments, which begin with `%`",
    ),
    (
        "knapsack",
        "cap L 6",
        "bc 2 1 1 2 1\ncap L 6",
        "line 12 has the form of a solution: is its place after `SOL`? Or are its sense and right-hand side missing?",
    ),
    (
        "knapsack",
        "bc 2 1",
        "c_up L 1 1 2 1\nbc 2 1",
        "line 21 has the form of a constraint: is its place after `CON`?",
    ),
    (
        "knapsack",
        "c_up L 1 1 2 1\n",
        "b L 20 OBJ { asm } -1\nc_up L 1 1 2 1\n",
        "line 18 has the form of a derivation: is its place after `DER`?",
    ),
    (
        "knapsack",
        "DER 1\n",
        "",
        "line 22 has the form of a derivation: is `DER` with its count missing in front of it?",
    ),
    (
        "knapsack",
        "cap L 6 3 0 3 1 4 2 2",
        "cap L 6",
        "line 12 ends in the middle of `cap`: is a part of it lost?",
    ),
    # numbers as other programs write them
    (
        "knapsack",
        "13/4 2",
        "04-Mar 2",
        "is `04-Mar` a date? A spreadsheet makes one of a fraction as 1/2: import the column as text",
    ),
    (
        "knapsack",
        "2 1/4 6",
        "2 Jan-04 6",
        "is `Jan-04` a date? A spreadsheet makes one of a fraction",
    ),
    ("knapsack", "cap L 6", "cap L 1E+05", "exponents are not in the format: write 100000"),
    (
        "knapsack",
        "13/4 2",
        "1e-09 2",
        "exponents are not in the format: write 1/1000000000; or is it the error of a rounding, and 0 meant?",
    ),
    (
        "knapsack",
        "cap L 6",
        "cap L 1,000",
        "a number is digits without separators: is 1000 meant, or a decimal with a comma?",
    ),
    (
        "knapsack",
        "cap L 6",
        "cap L -1_000_000",
        "a number is digits without separators: is -1000000 meant?",
    ),
    (
        "knapsack",
        "cap L 6",
        "cap L \u22126",
        "is `-6` meant? The sign here is U+2212, a minus of typesetting: write the `-` of ASCII",
    ),
    (
        "knapsack",
        "cap L 6",
        "cap L \u20136",
        "this token has a byte that is not ASCII, as a minus or a space of a word processor",
    ),
    (
        "knapsack",
        "3 0 10",
        "3 0 1e-40",
        "exponents are not in the format: write all digits, or a fraction, as 1/1000",
    ),
    (
        "knapsack",
        "cap L 6",
        "cap L 6\0",
        "a byte of `6\\x00` is no part of a text: is the file damaged, or was more of a buffer written than its text?",
    ),
    ("knapsack", "} -1\n", "} -1\n\x1a", "a byte of `\\x1a` is no part of a text"),
    (
        "knapsack",
        "CON 7 6",
        "// constraints\nCON 7 6",
        "is this a comment? Comments may only be before `VER`, and begin with `%`",
    ),
    (
        "knapsack",
        "} -1\n",
        "} -1\n# the end",
        "a file is one certificate, without comments after `VER`: remove all from here on",
    ),
    ("knapsack", "L 20 OBJ", "L 20 obj", "is `OBJ` meant?"),
]

# Texts that are no certificate, and what is said of each.
OTHER_FILES = [
    (b"p cnf 3 2\n1 -2 0\n", "this looks like a file of a SAT solver (DIMACS, DRAT or LRAT)"),
    (b"-1 2 0\nd 1 0\n", "this looks like a file of a SAT solver (DIMACS, DRAT or LRAT)"),
    (b"* #variable= 3 #constraint= 1\n", "this looks like a pseudo-Boolean problem or proof"),
    (b"pseudo-Boolean proof version 2.0\n", "this looks like a pseudo-Boolean problem or proof"),
    (b"(set-logic QF_LRA)\n", "this looks like SMT-LIB, and not like a certificate"),
    (b"solution status: optimal\n", "this looks like a file of a solution"),
    (b"\\documentclass{article}\n", "this looks like TeX, and not like a certificate"),
    (b"\\Problem name: diet\nMinimize\n", "this looks like an LP file"),
]

BY_NAME = (
    "VER 1.0 VAR 3 truck van parts INT 0 OBJ max 3 0 17 1 11 2 3 CON 3 3 a L 1 1 0 1 b L 7 1 1 1 c L 8 1 2 1 RTP range 118 118 SOL 1 "
    "{} DER 1 d L 118 {} {{ lin 3 0 17 1 11 2 3 }} -1"
)
RANGE = "VER 1.0 VAR 4 a b c d INT 2 1 2 OBJ min 4 0 1 1 2 2 3 3 5 CON 1 0 r G 1 4 0 1 1 1 2 1 3 1 RTP range -inf inf SOL {} DER {}"

# Whole texts, what is said of each, and what isn't.
TEXTS = [
    # a solution, and a row, whose variables are counted in the order of their names
    (
        BY_NAME.format("s 3 0 8 1 1 2 7", "OBJ"),
        "with the variables of the solution counted in the order of their names all constraints hold, and the objective is 118, the "
        "primal bound: is it in that order, and not in VAR's?",
        "change the solution",
    ),
    (
        BY_NAME.format("s 3 0 1 1 7 2 8", "3 0 3 1 17 2 11"),
        "with variables counted in the order of their names the stated row is the objective's: are those of DER in that order, and not "
        "in VAR's?",
        "the derivation follows",
    ),
    (
        BY_NAME.format("s 3 0 1 1 7 2 8", "3 0 11 1 3 2 17"),
        "the stated row has the objective's coefficients at other variables: are those of DER in another order than in VAR?",
        "in the order of their names",
    ),
    # an objective that lacks a variable, and one with another coefficient
    (
        "VER 1.0 VAR 3 truck van parts INT 0 OBJ max 2 0 17 1 11 CON 3 3 a L 1 1 0 1 b L 7 1 1 1 c L 8 2 1 2 2 1 RTP range -inf inf "
        "SOL 0 DER 1 d L 76 OBJ { lin 3 0 17 1 5 2 3 } -1",
        "the stated row is the objective's: with 3 in place of 0 at parts in both the rows are the same: is that meant after `OBJ`?",
        "",
    ),
    # INT counted from 1, at a sum that is rounded and at a solution
    (
        RANGE.format(0, "1 x G 1 2 0 1 1 1 { rnd 1 0 1 } -1").replace(
            "4 0 1 1 1 2 1 3 1 RTP", "2 0 1 1 1 RTP"
        ),
        "does INT count variables from 1? With each of its indices 1 less",
        "",
    ),
    (
        RANGE.format("1 s 2 0 1 2 1/2", 0),
        "does INT count variables from 1? With each of its indices 1 less the values of all integer variables are whole",
        "is 1 meant",
    ),
    (
        RANGE.format("1 s 2 0 1 2 1/2", 0),
        "write a whole value, or take the variable out of INT\n",
        "is 1 meant",
    ),
    # rounded values
    (
        "VER 1.0 VAR 2 x y INT 0 OBJ min 1 0 1 CON 1 0 e E 1 2 0 1 1 1 RTP range -inf 1/3 SOL 1 s 2 0 333/1000 1 333/500 DER 0",
        "with 1/3 for 333/1000, and such a fraction for each rounded value, all constraints hold, and the objective is 1/3, the primal "
        "bound",
        "is a value rounded",
    ),
    # a coefficient that lost its sign, if infeasibility is claimed: then no solution is sought
    (
        "VER 1.0 VAR 2 x y INT 0 OBJ min 0 CON 1 0 e E 1 2 0 1 1 2 RTP infeas SOL 1 s 2 0 3 1 1 DER 0",
        "is -2 meant in place of 2 at y? Then both sides are the same; else change the solution, or leave it out",
        "all constraints hold",
    ),
    # counts, if no more is known
    (
        "VER 1.0 VAR 1 x y OBJ",
        "is the count after `VAR` right, or is a space in a name? Names alone are after it, and no types or bounds",
        "its count is",
    ),
    (
        "VER 1.0 VAR 2 x y INT 1 0 1 x OBJ",
        "is the count after `INT` too small? `INT` takes a count and that many indices",
        "its count is",
    ),
    (
        "VER 1.0 VAR 1 x INT 0 OBJ min 0 CON 2 0\nc L 1 1 0 1\n5 6 1 0 1 RTP",
        "the name in front of this is a number: is the count of coefficients in front of that too small, or a right-hand side missing?",
        "has the form",
    ),
    (
        "VER 1.0 VAR 1 x INT 0 OBJ min 0 CON 1 0 c L 1 1 0 1 RTP infeas SOL 0 DER 1 d L 1 1 0 1 { lin 2\n0 1 } -1",
        "the brace comes before the last entry that is counted: is the count of entries too large, or a number missing?",
        "after the count of",
    ),
    # a solution of a problem without a primal bound, and one in front of another
    (
        RANGE.format("1 s 2 0 -1 1 1", 0),
        "with 1 in place of -1 at a (variable 0) all constraints hold, and the objective is 3\n",
        "the primal bound",
    ),
]

# Helps of other texts, which aren't true of these: the model has to say so.
SOLUTION = RANGE.format("1 s 2 0 -1 1 1", 0)
UNTRUE_SLIPS = [
    *[
        (SOLUTION, sentence)
        for sentence in (
            "with 2 in place of -1 at a (variable 0) all constraints hold, and the objective is 3",
            "with 1 in place of -1 at a (variable 0) all constraints hold, and the objective is 3, the primal bound",
            "with -2 in place of -1 at a (variable 0) all constraints hold, and the objective is 0",
            "with 1 in place of 0 at a (variable 0) all constraints hold, and the objective is 3",
            "with each index of the solution 1 more all constraints hold, and the objective is 1",
            "with the values of a and b exchanged all constraints hold, and the objective is -1",
            "with 1 at c (variable 2) in place of b (variable 1) all constraints hold, and the objective is 2",
            "with 0 for -1, and such a fraction for each rounded value, all constraints hold, and the objective is 2",
            "with the variables of the solution counted in the order of their names all constraints hold, and the objective is 1: is it in "
            "that order, and not in VAR's?",
            "does INT count variables from 1? With each of its indices 1 less the values of all integer variables are whole",
            "with 2 in place of 1 at a this constraint holds: is that a number of floating point? Its denominator is a power of 2",
        )
    ],
    *[
        (BY_NAME.format("s 3 0 1 1 7 2 8", "3 0 17 1 11 2 4"), sentence)
        for sentence in (
            "with variables counted in the order of their names the stated row is the objective's: are those of DER in that order, and "
            "not in VAR's?",
            "the stated row has the objective's coefficients at other variables: are those of DER in another order than in VAR?",
            "the stated row is the objective's: with 3 in place of 4 at parts in both the rows are the same: is that meant after `OBJ`?",
        )
    ],
    *[
        (
            "VER 1.0\nVAR 2\na b\nINT 0\nOBJ min 0\nCON 2 0\nc L 1 1 0 1\nd M 2 1 0 1\nRTP infeas\n",
            sentence,
        )
        for sentence in (
            "`VAR` has 3 names, and its count is 2: is that wrong, or is a space in a name?",
            "`CON` has 3 constraints, and its count is 2: is 3 meant? It counts all constraints, bounds included",
            "`DER` has 2 derivations, and its count is 1: is 2 meant?",
            "2 pairs in line 7 after the count of coefficients, 1: is 2 meant, or is a part of the line lost?",
            "1 pair in line 7 after the count of coefficients, 1: is 1 meant, or is a part of the line lost?",
            "`SOL` is in line 9: is it to be in front of `RTP`? The order is VER, VAR, INT, OBJ, CON, RTP, SOL, DER",
            "`VER` is in line 1: a certificate begins there, but for comments, which begin with `%`",
            "with lines 8 and 9 exchanged the text can be read on: are they in the wrong order?",
            "line 8 has the form of a constraint: is its place after `CON`?",
            "line 7 ends in the middle of `d`: is a part of it lost?",
            "is `M` a date? A spreadsheet makes one of a fraction as 1/2: import the column as text",
            "is `-2` meant? The sign here is U+2212, a minus of typesetting: write the `-` of ASCII",
            "a byte of `M` is no part of a text: is the file damaged, or was more of a buffer written than its text?",
            "exponents are not in the format: write 2",
            "a number is digits without separators: is 2 meant?",
            "`RTP` was read as a name, and 1 constraint before it: is the count after `CON`, 2, too large, or is something missing in "
            "front of `RTP`?",
            "this looks like a pseudo-Boolean problem or proof, and not like a certificate",
            "this looks like a file of a SAT solver (DIMACS, DRAT or LRAT), and not like a certificate",
            "this looks like SMT-LIB, and not like a certificate",
            "this looks like TeX, and not like a certificate",
            "this looks like a file of a solution, and not like a certificate",
        )
    ],
]
