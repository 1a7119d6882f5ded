#!/usr/bin/env python3
"""What `vipr explain --long` says of mistakes that a person makes in the small problems of examples/problems.

usage: tests/long.py [--write] [--texts N] [--seed S] [PROGRAM]
Without them it is 2,000 texts, seed 1 and crates/vipr/out/vipr.

Each mistake is made in a copy, which is explained from its file, from standard input, and from a pipe that gives a
byte a read. The lines of `vipr explain` have to come first, byte for byte, with the same exit status; behind them the
place at fault, and what to change there. Ten of the problems are explained as they are: verified, and the goal is
shown. Then texts that are no certificate, a line of binary bytes, names with controls, long rows, and texts of which
an explanation is easily wrong: what a constraint rests on, what comes near a claim, what a profile asks for; and texts
that are large in one respect, so that a page could be cut off there. Every byte that is printed behind the first lines
is printable ASCII or a line feed, and there are 65,536 of them at most. A file is opened once, a named pipe too. One
that can't be opened or is a folder has the answer of `vipr explain`, and in front of it a line with its name and the reason. One
part of each reason of the problems is damaged, and most of the changes with which the derivation follows, as the page says,
are the original.

What each page says is worked out again: page_model.py reads it line by line, with a reader and rules that share no code with the
program. So are the pages of N texts that are examples with parts damaged, with one number changed, or with a slip of a person or a
script, by both profiles, and those of texts that are large in one respect. In each page one number, sign, name or mark is changed
then, and page_model.py has to see that. It also has to find that helps of other texts aren't true of some texts.

The first page of each cause, and of each form that pages of it have, is compared with the one in tests/long_pages.txt: there
a reader sees what a change of words does. --write writes that file. Each text in the sources of the pages is in a page.

Prints each fault, and last `long: N checks, F failed`; the exit status is 1 if one failed.
"""
import argparse
import collections
import errno
import hashlib
import os
import random
import re
import sys
import tempfile
import threading
from fractions import Fraction
from pathlib import Path

import page_changes
import page_facts
import page_model
import page_texts
from page_slips import OTHER_FILES, SLIPS, TEXTS, UNTRUE_SLIPS
from damage import changed, damaged, mistaken, nearly
from texts import TOP, Checks, examples, fed, may_trace, program, run, traced

words_of = argparse.ArgumentParser(description=__doc__.split("\n", maxsplit=1)[0])
words_of.add_argument("program", nargs="*")
words_of.add_argument("--write", action="store_true")
words_of.add_argument("--texts", type=int, default=2_000)
words_of.add_argument("--seed", default="1")
GIVEN = words_of.parse_args()
PROGRAM = program(GIVEN.program)
PAGES = TOP / "tests/long_pages.txt"
PROBLEMS = TOP / "examples/problems"
MOST_BYTES, CUT = 65536, b".. the rest is left out\n"
# the texts of whose pages one part was changed, and how many characters such a page has at most
CHANGED, MOST_OF_CHANGED = [], 10_000

# The problem, what is replaced by what, where the long explanation points, and what it says to change.
MISTAKES = [
    # constraint written as terms first, sense word >=
    (
        "knapsack",
        "a_lo G 0 1 0 1",
        "a_lo 0 1 1 >= 0",
        ".vipr:13:6\n",
        "sense and right-hand side are before the coefficients",
    ),
    # rhs behind the coefficients (cap 3 0 3 1 4 2 2 L 6)
    (
        "knapsack",
        "cap L 6 3",
        "cap 3 0 3 1 4 2 2 L 6 #",
        ".vipr:12:5\n",
        "sense and right-hand side are before the coefficients",
    ),
    # count of constraints one too small
    (
        "knapsack",
        "CON 7 6",
        "CON 6 6",
        ".vipr:18:1\n",
        "`CON` has 7 constraints, and its count is 6: is 7 meant?",
    ),
    # count of constraints one too large
    (
        "knapsack",
        "CON 7 6",
        "CON 8 6",
        ".vipr:19:5\n",
        "`RTP` was read as a name, and 7 constraints before it: is the count after `CON`, 8, too large",
    ),
    # number of bounds forgotten
    ("knapsack", "CON 7 6", "CON 7", ".vipr:12:1\n", "`CON` takes two counts"),
    # only one bound after range
    ("knapsack", "range 20 20", "range 20", ".vipr:20:1\n", "`range` takes two bounds"),
    # decimal
    ("knapsack", "13/4", "3.25", ".vipr:23:26\n", "write 13/4"),
    # index and count forgotten: rnd 0 13/4 2 1/4 6 1/2 (count p forgotten)
    (
        "knapsack",
        "rnd 3 0",
        "rnd 0 13/4",
        ".vipr:23:24\n",
        "3 pairs in line 23 after the count of entries, 0: is 3 meant",
    ),
    # brace glued
    ("knapsack", "{ rnd", "{rnd", ".vipr:23:16\n", "put a space after the brace"),
    # last reference forgotten at the last line
    ("knapsack", "} -1", "}", ".vipr:23:43\n", "write the last reference after `}`"),
    # lin where rnd is needed
    (
        "knapsack",
        "rnd 3 0 13/4 2 1/4 6 1/2",
        "lin 3 0 13/4 2 1/4 6 1/2",
        ".vipr:23:18\n",
        "with `rnd` in place of `lin` the derivation follows",
    ),
    # constraint indices counted from 1
    (
        "knapsack",
        "rnd 3 0 13/4 2 1/4 6 1/2",
        "rnd 3 1 13/4 3 1/4 7 1/2",
        ".vipr:23:37\n",
        "indices count from 0: the problem has 7 constraints",
    ),
    # variable indices counted from 1
    (
        "knapsack",
        "3 0 10 1 13 2 7",
        "3 1 10 2 13 3 7",
        ".vipr:10:13\n",
        "indices count from 0: that of the last variable is 2",
    ),
    # wrong sense of a dual bound under max
    ("knapsack", "bound L 20", "bound G 20", ".vipr:23:7\n", "the sense: computed <=, stated >="),
    # a dense solution vector of n values
    (
        "knapsack",
        "bc 2 1 1 2 1",
        "bc 3 1 1 1",
        ".vipr:21:10\n",
        "3 numbers in line 21 after the count of values, 3: are the indices left out?",
    ),
    # solution that breaks cap
    (
        "knapsack",
        "bc 2 1 1 2 1",
        "bc 3 0 1 1 1 2 1",
        ".vipr:21:1\n",
        "a = 1, b = 1, c = 1; the left side is 9, which is not <= 6",
    ),
    # sign of a multiplier
    (
        "knapsack",
        "2 1/4 6 1/2",
        "2 -1/4 6 1/2",
        ".vipr:23:33\n",
        "with the multiplier 1/4 in place of -1/4 at [2] a_up the derivation follows",
    ),
    # all multipliers positive, as one writes Farkas with flipped rows
    (
        "pigeonhole",
        "3 -1 4 -1",
        "3 1 4 1",
        ".vipr:20:36\n",
        "x11 + x21 + x31 <= 1  (line 15) <-- entry 3",
    ),
    # a variable name too many
    (
        "pigeonhole",
        "x31 x32\n",
        "x31 x32 x33\n",
        ".vipr:6:9\n",
        "`VAR` has 7 names, and its count is 6: is that wrong, or is a space in a name?",
    ),
    # comment behind VER
    ("one_machine", "VER 1.0\n", "VER 1.0\n% a model\n", ".vipr:3:1\n", "is this a comment?"),
    # forgot to declare y integer
    (
        "one_machine",
        "INT 1\n2\n",
        "INT 0\n",
        ".vipr:24:20\n",
        "INT lists no variable: is it left out?",
    ),
    # uns with assumption before conclusion
    (
        "one_machine",
        "uns 10 8 11 9",
        "uns 8 10 9 11",
        ".vipr:25:19\n",
        "with `uns 10 8 11 9` the derivation follows",
    ),
    # uns with the assumptions crossed
    (
        "one_machine",
        "uns 10 8 11 9",
        "uns 10 9 11 8",
        "(line 25)",
        "[12] no  0 >= 1  (line 25), rests on [8] [9]",
    ),
    # last reference too early at an assumption
    ("one_machine", "{ asm } 12\ny1", "{ asm } 9\ny1", "(line 25)", "goal   [12] no  0 >= 1"),
    # last reference too early at a conclusion
    ("one_machine", "8 -10 } 12", "8 -10 } 11", ".vipr:23:41\n", "write 12 or -1 here"),
    # a wrong multiplier
    (
        "one_machine",
        "8 -10 }",
        "8 -9 }",
        ".vipr:23:35\n",
        "with the multiplier -10 in place of -9 at [8] y0 the derivation follows",
    ),
    # a wrong datum (the problem is feasible then)
    (
        "one_machine",
        "s2_up L 2",
        "s2_up L 3",
        ".vipr:24:13\n",
        "right-hand side: computed 0, stated 1, which says 1 too much",
    ),
    # forgot the bound x3 >= 0 in the sum (hidden x >= 0)
    (
        "set_cover",
        "leaf1 G 7 OBJ { lin 3 1 4 10 3 5 1 } 13",
        "leaf1 G 7 OBJ { lin 2 1 4 10 3 } 13",
        ".vipr:24:1\n",
        "with one more entry, 1 x [5] l3, the derivation follows",
    ),
    # joined wrongly: scaled row under an assumption
    (
        "set_cover",
        "all G 7 OBJ { uns 11 9 12 10 } -1",
        "all G 14 3 0 6 1 8 2 10 { lin 1 12 2 } -1",
        "(line 24)",
        "[12] leaf1  objective >= 7  (line 24), strong enough, rests on [10]",
    ),
    # a primal bound better than the solution
    ("set_cover", "RTP range 7 7", "RTP range 7 6", "", "7 is attained: is that the primal bound"),
    # claims more than proved
    (
        "set_cover",
        "RTP range 7 7",
        "RTP range 8 7",
        "(line 25)",
        "[13] all  objective >= 7  (line 25), too weak by 1, rests on no assumption",
    ),
    # count of derivations one too small
    ("set_cover", "DER 5", "DER 4", ".vipr:25:1\n", "`DER` has 5 derivations, and its count is 4"),
    # word of another tool
    (
        "set_cover",
        "all G 7 OBJ { uns",
        "all G 7 OBJ { unsplit",
        ".vipr:25:15\n",
        "is `uns` meant?",
    ),
    # version 1.1
    ("set_cover", "VER 1.0", "VER 1.1", ".vipr:2:5\n", "write 1.0"),
    # no VER
    ("set_cover", "VER 1.0\n", "", ".vipr:2:1\n", "in front of `VAR` write `VER 1.0`"),
    # lin weak of version 1.1
    (
        "set_cover",
        "leaf1 G 7 OBJ { lin 3 1 4 10 3 5 1 }",
        "leaf1 G 7 OBJ { lin weak { 0 } 3 1 4 10 3 5 1 }",
        ".vipr:24:21\n",
        "by viprcomp of the VIPR package",
    ),
    # lin incomplete of version 1.1
    (
        "set_cover",
        "leaf1 G 7 OBJ { lin 3 1 4 10 3 5 1 }",
        "leaf1 G 7 OBJ { lin incomplete 1 10 5 }",
        ".vipr:24:21\n",
        "by viprcomp of the VIPR package",
    ),
    # a multiplier that leaves fractions
    ("matching", "2 1/2 }", "2 1/3 }", ".vipr:18:35\n", "the coefficient 5/6 of e23 is not whole"),
    # solution forgotten though sol is used (52 comes first)
    ("cutoff", "SOL 1\nbest 2 0 1 1 1\n", "SOL 0\n", "", "list a solution after SOL"),
    # vector with count 1 missing
    (
        "cutoff",
        "prune G 2 0",
        "prune G 1 0 1 0",
        ".vipr:22:13\n",
        "1 pair in line 22 after the count of coefficients, 0: is 1 meant",
    ),
    # decimal bounds
    ("diet", "16/5 16/5", "3.2 3.2", ".vipr:12:11\n", "write 16/5"),
    # not lowest terms (fine)
    (
        "diet",
        "dual G 16/5 OBJ",
        "dual G 16/5 2 0 6/10 1 7/10",
        "(line 16)",
        "goal   [4] dual  3/5 bread + 7/10 milk >= 16/5",
    ),
    # typo in a coefficient
    (
        "diet",
        "dual G 16/5 OBJ",
        "dual G 16/5 2 0 3/5 1 7/1",
        ".vipr:16:1\n",
        "milk (variable 1): computed 7/10, stated 7",
    ),
    # last reference too early deep
    (
        "two_levels",
        "b G 2 OBJ { uns 9 7 10 8 } 12",
        "b G 2 OBJ { uns 9 7 10 8 } 11",
        ".vipr:23:28\n",
        "write 12 or -1 here",
    ),
    # datum weaker: leaf a0 breaks
    (
        "two_levels",
        "c2 G 1/2",
        "c2 G 0",
        ".vipr:18:12\n",
        "right-hand side: computed 0, stated 1, which says 1 too much",
    ),
    # y not integer
    (
        "parity",
        "INT 2 0 1",
        "INT 1 0",
        ".vipr:12:13\n",
        "y is not an integer variable: is its index 1 left out after INT?",
    ),
    # script: floor computed as n//2-1
    (
        "five_cycle",
        "odd0 L 2",
        "odd0 L 1",
        ".vipr:25:8\n",
        "right-hand side: computed 2, stated 1, which says 1 too much",
    ),
]

# More mistakes: the problem, what is replaced by what, and what the long explanation says to change. A row for each hint.
HINTS = [
    # a space, a line break or more is lost in a token
    ("knapsack", "VAR 3", "VAR3", "did a space or a line break get lost between `VAR` and `3`?"),
    ("set_cover", "0 1 1 1\n", "0 1 1 1", "get lost between `1` and `b`?"),
    ("set_cover", "} 13\nleaf1", "} 13leaf1", "get lost between `13` and `leaf1`?"),
    ("set_cover", "7 7\nSOL", "7 7SOL", "get lost between `7` and `SOL`?"),
    ("set_cover", "SOL 1\nbest", "SOL 1best", "get lost between `1` and `best`?"),
    ("set_cover", "VAR 3\nx1", "VAR 3x1", "get lost between `3` and `x1`?"),
    ("set_cover", "9 -6", "9-6", "get lost between `9` and `-6`?"),
    ("set_cover", "lin 4", "lin4", "get lost between `lin` and `4`?"),
    ("set_cover", "asm }", "asm}", "get lost between `asm` and `}`?"),
    ("set_cover", "a G 1", "a G1", "get lost between `G` and `1`?"),
    ("set_cover", "range 7", "range7", "get lost between `range` and `7`?"),
    ("set_cover", "min 3", "min3", "get lost between `min` and `3`?"),
    ("set_cover", "1.0\nVAR", "1.0VAR", "get lost between `1.0` and `VAR`?"),
    (
        "set_cover",
        "} 13\nleaf1 G 7 OBJ",
        "} 13}{",
        "is a part of the text lost between `13` and `}{`?",
    ),
    ("set_cover", "0 1 1 1\nb", "0 1 1OBJ", "is a part of the text lost between `1` and `OBJ`?"),
    ("set_cover", "0 1 1 1\nb", "0x3", "is a part of the text lost between `0` and `x3`?"),
    # a mixed number
    ("diet", "0 3/5 1 7/10", "0 1 3/5 1 7/10", "is `1 3/5` a mixed number? Then write 8/5"),
    ("set_cover", "9 -6 3 0", "9 -6 1/3 3 0", "is `-6 1/3` a mixed number? Then write -19/3"),
    ("set_cover", "3 1 4 10 3 5 1 }", "3 1 4 10 3 5 1 1/2 }", "is `1 1/2` a mixed number?"),
    ("diet", "protein G 8", "protein G 8 1/2", "is `8 1/2` a mixed number? Then write 17/2"),
    # a mail
    ("set_cover", "9 -6", "9 -=\n6", "mail breaks a long line with `=` at its end, as in line 23"),
    (
        "set_cover",
        "a G 1",
        "a=\n_b G 1",
        "mail breaks a long line with `=` at its end, as in line 8",
    ),
    ("set_cover", "x1 x2", "x1 x=\n2", "mail breaks a long line with `=` at its end, as in line 4"),
    ("set_cover", "a G 1", "a a=3Db G 1", "mail writes `=3D` for `=`: was the file sent"),
    ("set_cover", "9 -6 ", "9 -6=20\n", "mail writes `=20` for a space: was the file sent"),
    # two versions that were put into one
    (
        "set_cover",
        "DER 5\n",
        "DER 5\n<<<<<<< HEAD\n",
        "line 21 looks like a conflict marker of a merge",
    ),
    ("set_cover", "SOL 1\n", "=======\nSOL 1\n", "line 18 looks like a conflict marker of a merge"),
    # what another program printed
    (
        "set_cover",
        "leaf1 G",
        "Warning: node limit reached\nleaf1 G",
        "is this line what another program printed, and no part of the certificate?",
    ),
    ("set_cover", "SOL 1\n", "Removed 3 rows and 4 columns\nSOL 1\n", "another program printed"),
    ("set_cover", "leaf1 G", "<pre>\nleaf1 G", "is `<pre>` a tag of HTML?"),
    ("set_cover", "-1\n", "-1\n</pre>\n", "is `</pre>` a tag of HTML?"),
    # a line that is there twice
    ("set_cover", "l1 G 0 1 0 1\n", 2 * "l1 G 0 1 0 1\n", "line 12 repeats line 11: was it"),
    ("set_cover", "DER 5\n", 2 * "DER 5\n", "line 21 repeats line 20: was it written twice?"),
    (
        "set_cover",
        "down L 0 1 0 1 { asm } 13\n",
        2 * "down L 0 1 0 1 { asm } 13\n",
        "line 22 repeats line 21: was it written twice?",
    ),
    # another format, or something in front of the text
    ("diet", "% a diet", "# a diet", "a comment begins with `%`"),
    ("diet", "VER 1.0", "ver 1.0", "keywords are in capitals: is `VER` meant?"),
    (
        "diet",
        "VER 1.0",
        "Version 1.0",
        "a certificate begins with the line `VER 1.0`: is it missing here",
    ),
    ("diet", "VER 1.0", "VER 1.0 1", "the next section comes after the version `1.0`"),
    # a number of a row of the problem, or the stated one
    (
        "pigeonhole",
        "job2 G 1 2 2 1 3 1",
        "job2 G 1 2 2 1 3 -1",
        "with 1 in place of -1 at x22 in [1] job2  (line 13) the rows are the same: is that meant",
    ),
    (
        "pigeonhole",
        "job3 G 1 2 4 1 5 1",
        "job3 G 1 2 4 1 3 1",
        "with x32 in place of x22 in [2] job3  (line 14) the rows are the same: is that meant?",
    ),
    # the right-hand side alone
    (
        "diet",
        "dual G 16/5",
        "dual G 17/5",
        "the sum has the stated row: is 16/5 meant here, or is a right-hand side below wrong?",
    ),
    # a file that is cut among the derivations
    (
        "set_cover",
        "leaf0 G 7 OBJ { lin 4 0 4 2 5 9 -6 3 0 } 13\nleaf1 G 7 OBJ { lin 3 1 4 10 3 5 1 } 13\nall G 7 OBJ { uns 11 9 12 10 } -1\n",
        "",
        "the text ends after 2 of 5 derivations: is the file cut, or the count after `DER` too large?",
    ),
    (
        "set_cover",
        "} 13\nleaf1 G 7 OBJ { lin 3 1 4 10 3 5 1 } 13\nall G 7 OBJ { uns 11 9 12 10 } -1\n",
        "}",
        "the text ends after 2 of 5 derivations",
    ),
    # one index of a derivation that is counted from 0
    (
        "set_cover",
        "9 -6",
        "0 -6",
        "with [9] down in place of [0] a at entry 2 the derivation follows (indices count from 0",
    ),
    (
        "set_cover",
        "uns 11 9 12 10",
        "uns 2 9 12 10",
        "with `uns 11 9 12 10` the derivation follows (indices count from 0: the problem has 9",
    ),
    # an equation in place of an inequality
    (
        "set_cover",
        "a G 1 2 0 1 1 1",
        "a E 1 2 0 1 1 1",
        "is `G` meant in place of `E`? Then the solution meets this constraint",
    ),
    ("knapsack", "a_up L", "a_up E", "is `L` meant in place of `E`? Then the solution meets"),
    # a fraction in two tokens
    ("diet", "range 16/5", "range 16/\n5", "is `16/5` meant? A number is one token"),
    ("diet", "lin 2 0 11/50", "lin 2 0 11\n/50", "is `11/50` meant? A number is one token"),
    ("diet", "7/10", "7 / 10", "is `7/10` meant? A number is one token"),
    (
        "set_cover",
        "c G 1 2 0 1 2 1\n",
        "c G 1 2 0 1 2 1\n/1\n",
        "the name in front of this begins with `/`: is it the end of a number",
    ),
    # a bound that is proved and attained
    (
        "set_cover",
        "RTP range 7 7\n",
        "RTP infeas\n",
        "and a listed solution attains it: is `RTP range 7 7` meant?",
    ),
    # a section left out, or in small letters
    (
        "diet",
        "VAR 2\nbread milk\n",
        "",
        "is `VAR` missing, or in another place? Then in front of `INT` write `VAR COUNT NAME ..`",
    ),
    ("diet", "INT 0\n", "", "in front of `OBJ` write `INT 0` if no variable is integer"),
    (
        "diet",
        "OBJ min 2 0 3/5 1 7/10\n",
        "",
        "in front of `CON` write `OBJ min 0` if there is no objective",
    ),
    (
        "parity",
        "CON 1 0\ne E 3 2 0 2 1 4\n",
        "",
        "in front of `RTP` write `CON 0 0` if there is no constraint",
    ),
    (
        "diet",
        "RTP range 16/5 16/5\n",
        "",
        "in front of `SOL` write `RTP infeas` or `RTP range LOWER UPPER`",
    ),
    ("diet", "SOL 1\nopt 2 0 3 1 2\n", "", "in front of `DER` write `SOL 0` if none is listed"),
    (
        "diet",
        "DER 1\ndual G 16/5 OBJ { lin 2 0 11/50 1 4/25 } -1\n",
        "",
        "or is `DER` missing? Then write `DER 0` if nothing is derived",
    ),
    ("diet", "INT 0", "int 0", "keywords are in capitals: is `INT` meant?"),
    # a keyword swallowed by a count, or something that isn't counted
    (
        "diet",
        "bread milk",
        "bread",
        "`INT` was read as a name, and 1 variable before it: is the count after `VAR`, 2, too large",
    ),
    (
        "diet",
        "bread milk",
        "bread whole milk",
        "`VAR` has 3 names, and its count is 2: is that wrong, or is a space in a name?",
    ),
    (
        "diet",
        "bread milk",
        "bread milk 3",
        "`VAR` has 3 names, and its count is 2: is that wrong",
    ),
    (
        "diet",
        "INT 0",
        "INT 1",
        "`OBJ` is the keyword of a section, after 0 indices: is the count after `INT`, 1, too large?",
    ),
    ("set_cover", "INT 3 0 1 2", "INT 2 0 1 2", "`INT` has 3 indices, and its count is 2"),
    (
        "diet",
        "OBJ min 2 0 3/5",
        "OBJ min 1 0 3/5",
        "2 pairs in line 6 after the count of coefficients, 1: is 2 meant",
    ),
    ("diet", "CON 4 2", "CON 2 4", "`CON` has 4 constraints, and its count is 2: is 4 meant?"),
    (
        "diet",
        "CON 4 2",
        "CON 5 2",
        "`RTP` was read as a name, and 4 constraints before it: is the count after `CON`, 5, too large",
    ),
    ("diet", "range 16/5 16/5", "range 16/5 16/5 1", "`range` takes two bounds, and `infeas` none"),
    (
        "diet",
        "range 16/5 16/5\nSOL 1",
        "range 16/5 inf\nSOL 0",
        "`SOL` has 1 solution, and its count is 0: is 1 meant?",
    ),
    (
        "diet",
        "SOL 1",
        "SOL 2",
        "`DER` was read as a name, and 1 solution before it: is the count after",
    ),
    (
        "matching",
        "SOL 1\nm 1 0 1\nDER 1\nodd L 1 OBJ { rnd 3 0 1/2 1 1/2 2 1/2 } -1\n",
        "SOL 2\nm 1 0 1\nDER 0\n",
        "`DER` was read as a name, and 1 solution before it: is the count after `SOL`, 2, too large",
    ),
    ("diet", "DER 1", "DER 2", "is the file cut, or the count after `DER` too large?"),
    # a cut file
    (
        "diet",
        "lin 2 0 11/50 1 4/25 } -1\n",
        "li",
        "the text ends with this token: is the file cut?",
    ),
    (
        "diet",
        " 2 0 1 1 3\nnb G 0 1 0 1\nnm G 0 1 1 1\nRTP range 16/5 16/5\nSOL 1\nopt 2 0 3 1 2\nDER 1\n"
        "dual G 16/5 OBJ { lin 2 0 11/50 1 4/25 } -1\n",
        "",
        "is the file cut, or a count too large?",
    ),
    # numbers
    ("diet", "range 16/5", "range 3,2", "a comma is not in the format"),
    (
        "diet",
        "range 16/5",
        "range inf",
        "for no lower bound write `-inf`; if the problem is infeasible write `RTP infeas`",
    ),
    (
        "diet",
        "range 16/5",
        "range -infinity",
        "for no lower bound write `-inf`; if the problem is infeasible write `RTP infeas`",
    ),
    ("diet", "16/5 16/5", "16/5 Inf", "for no bound write `-inf` first and `inf` second"),
    (
        "diet",
        "16/5 16/5",
        "16/5 1e+20",
        "exponents are not in the format: write all digits, or `-inf`",
    ),
    (
        "diet",
        "16/5 16/5",
        "x 16/5",
        "two bounds come after `range` and nothing else: each is a number, as -3 or 13/4, or `-inf`",
    ),
    ("diet", "11/50", "inf", "infinite values may only be bounds of the claim"),
    ("diet", "11/50", "nan", "is there no value? Then leave the entry"),
    (
        "diet",
        "11/50",
        "0.2200000000000000000001",
        "decimals are not in the format: write a fraction",
    ),
    ("diet", "SOL 1", "SOL", "is it missing after the keyword?"),
    ("diet", "11/50", "22e-2", "exponents are not in the format: write 11/50"),
    ("diet", "11/50", "/ 50", "a number has no spaces"),
    ("diet", "11/50", "11/-50", "its sign is in front, as -5/2"),
    ("diet", "11/50", "\u221211/50", "is `-11/50` meant? The sign here is U+2212"),
    ("diet", "3/5", "3/5;", "is `3/5` meant? Nothing else may be in its token"),
    ("diet", "3/5", "3/5x;", "remove the comma or semicolon"),
    ("diet", "4/25 }", "4/25}", "put a space before the brace"),
    (
        "diet",
        "1 4/25 }",
        "1 }",
        "3 numbers in line 16 after the count of entries, 2: is a number lost",
    ),
    ("diet", "dual G 16/5 OBJ", "dual G OBJ", "is the right-hand side missing?"),
    ("diet", "dual G 16/5 OBJ", "dual G DER", "this is the keyword of a section"),
    ("diet", "protein G 8", "protein G eight", "is the count before it right?"),
    # indices and counts
    ("set_cover", "INT 3 0 1 2", "INT 3 x1 x2 x3", "`INT` lists variables by their indices"),
    (
        "diet",
        "2 0 3/5 1 7/10",
        "2 bread 3/5 milk 7/10",
        "a variable is named by its index, from 0: is a name in its place, is a pair missing",
    ),
    ("diet", "2 0 3/5 1 7/10", "3 0 3/5 1 7/10 2 5", "is this a constant? An objective has none"),
    (
        "diet",
        "nm G 0 1 1 1",
        "nm G 0 1 2 1",
        "indices count from 0: that of the last variable is 1; are the pairs INDEX COEFFICIENT?\n",
    ),
    ("diet", "opt 2 0 3 1 2", "opt 2 0 x 1 2", "wanted the value of pair 0"),
    ("diet", "opt 2 0 3 1 2", "the optimum 2 0 3 1 2", "a solution is NAME COUNT INDEX VALUE .."),
    (
        "diet",
        "iron G 9 2",
        "iron G 9 two",
        "a vector is a count and then that many pairs INDEX COEFFICIENT",
    ),
    ("diet", "lin 2", "lin two", "`lin` and `rnd` take COUNT INDEX MULTIPLIER .."),
    ("parity", "VAR 2\nx y\nINT 2 0 1", "VAR 0 INT 1 0", "the text has no variables (VAR 0)"),
    ("diet", "SOL 1", "SOL one", "wanted the number of solutions"),
    ("diet", "VAR 2", "VAR two", "a count is digits alone"),
    # senses and names
    ("diet", "protein G", "protein ge", "write `G` for `>=`"),
    ("set_cover", "u1 L", "u1 <=", "write `L` for `<=`"),
    ("parity", "e E", "e ==", "write `E` for `=`"),
    ("diet", "protein G", "protein R", "a constraint with two sides is two"),
    ("diet", "protein G", "protein\u00a0G", "the name has a byte that is not ASCII"),
    ("diet", "protein G", '"my protein" G', "a name has no spaces, not even in quotes"),
    ("diet", "iron G", "my iron G", "is a space in the name, or a coefficient missing above?"),
    ("diet", "iron G", "G", "is it the sense, and the name missing?"),
    (
        "diet",
        "protein G 8 2",
        "protein G 8 1",
        "2 pairs in line 8 after the count of coefficients, 1",
    ),
    # reasons
    ("diet", "{ lin", "lin", "write `{` in front of this reason"),
    ("diet", "{ lin", "( lin", "a reason is between `{` and `}`"),
    ("set_cover", "{ asm }", "{ asm 0 }", "`asm` and `sol` take nothing"),
    (
        "set_cover",
        "lin 4 0 4",
        "lin 4 a 4",
        "a constraint is named by its index, digits alone, and not by its name",
    ),
    ("diet", "2 0 11/50", "2 0:11/50", "an entry is two tokens, INDEX MULTIPLIER"),
    ("diet", "0 11/50", "0 11 / 50", "is `11/50` meant? A number is one token"),
    ("diet", "0 11/50", "0 11 /50", "is `11/50` meant? A number is one token"),
    ("diet", "opt 2 0 3 1 2", "2 1 1 2", "its name is a number: is the name missing?"),
    ("diet", "1 4/25 }", "}", "2 numbers in line 16 after the count of entries, 2: is 1 meant?"),
    ("set_cover", "uns 11 9 12 10", "uns 11 9 12", "`uns` takes four indices"),
    ("set_cover", "{ asm } 13", "{ asm } inf", "write the last reference after `}`"),
    ("set_cover", "uns 11 9 12 10", "uns a 9 12 10", "wanted i1 of `uns`"),
    ("set_cover", "uns 11 9 12 10", "uns 11 a 12 10", "wanted l1 of `uns`"),
    ("set_cover", "uns 11 9 12 10", "uns 11 9 a 10", "wanted i2 of `uns`"),
    (
        "diet",
        "} -1\n",
        "} -1\n% proved\n",
        "a file is one certificate, without comments after `VER`",
    ),
    # a derivation: an index, a multiplier, an order
    (
        "set_cover",
        "lin 3 1 4",
        "lin 3 1 3",
        "with the multiplier 4 in place of 3 at [1] b the derivation follows",
    ),
    (
        "set_cover",
        "lin 3 1 4 10 3 5 1",
        "lin 3 1 -4 10 -3 5 -1",
        "each coefficient has the other sign: does every multiplier have the wrong sign?",
    ),
    (
        "knapsack",
        "2 1/4 6 1/2",
        "5 1/4 6 1/2",
        "with [2] a_up in place of [5] c_lo at entry 1 the derivation follows",
    ),
    (
        "knapsack",
        "0 13/4 2 1/4",
        "0 -13/4 5 1/4",
        "is another constraint meant (indices count bounds, too)",
    ),
    (
        "set_cover",
        "uns 11 9 12 10",
        "uns 11 9 13 10",
        "with `uns 11 9 12 10` the derivation follows",
    ),
    ("two_levels", "uns 9 7 10 8", "uns 9 4 10 8", "they are about different rows"),
    # a case that doesn't rest on its own assumption
    (
        "two_levels",
        "uns 9 7 10 8",
        "uns 9 4 10 8",
        "with `uns 9 7 10 8` the derivation follows",
    ),
    # all indices, or all multipliers, wrong in one way
    (
        "fixed_charge",
        "lin 3 0 1 10 5 5 3",
        "lin 3 1 1 11 5 6 3",
        "with every index one less the derivation follows (indices count from 0: the problem has 9 constraints,"
        " so the first derivation is 9)",
    ),
    (
        "fixed_charge",
        "uns 11 9 12 10",
        "uns 10 8 11 9",
        "with every index one more the derivation follows",
    ),
    (
        "set_cover",
        "uns 11 9 12 10",
        "uns 2 0 3 1",
        "with every index 9 more the derivation follows (indices count from 0",
    ),
    (
        "first_example",
        "lin 3 2 -1/3 3 -1/3 6 2",
        "lin 3 2 -1/3 4 -1/3 7 2",
        "with every index from 3 on one less the derivation follows (indices count from 0: the problem has 3",
    ),
    (
        "first_example",
        "uns 7 5 8 6",
        "uns 8 5 9 6",
        "with every index from 8 on one less the derivation follows: is a line left out before [7] C4  (line 20)?",
    ),
    (
        "fixed_charge",
        "6 -4 9 -6",
        "5 -4 8 -6",
        "with every index from 5 on one more the derivation follows: is there a line too many before [6] y1_up",
    ),
    (
        "set_cover",
        "lin 3 1 4 10 3 5 1",
        "lin 3 1 20 10 15 5 5",
        "with every multiplier times 1/5 the derivation follows",
    ),
    (
        "set_cover",
        "lin 3 1 4 10 3 5 1",
        "lin 3 1 -4 10 -3 5 -1",
        "with every multiplier times -1 the derivation follows",
    ),
    ("two_levels", "uns 9 7 10 8", "uns 7 9 8 10", "with `uns 9 7 10 8` the derivation follows"),
    ("two_levels", "uns 9 7 10 8", "uns 9 10 7 8", "with `uns 9 7 10 8` the derivation follows"),
    ("cutoff", "cut L 7", "cut L 6", "`sol` gives the best listed value, and nothing better"),
    # a claim
    (
        "set_cover",
        "uns 11 9 12 10",
        "uns 11 10 12 9",
        "[11] rests on [9], and [12] on [10]: are l1 and l2 exchanged? `uns 11 9 12 10`",
    ),
    # (an assumption that is left)
    (
        "set_cover",
        "uns 11 9 12 10",
        "uns 11 9 11 10",
        "[13] all  (line 25) should take [9] away, but its other case, [11], rests on [9], too",
    ),
    (
        "set_cover",
        "lin 3 1 4 10 3 5 1",
        "asm",
        "no `uns` takes [12] away, and it bounds the objective: is a node still open?",
    ),
    (
        "two_levels",
        "uns 6 4 11 5",
        "uns 6 4 10 5",
        "11 is the first derivation that names [10], and 12 the last one: write the last one",
    ),
    # (a case that is a multiple of what is stated, or weaker)
    (
        "set_cover",
        "leaf1 G 7 OBJ { lin 3 1 4 10 3 5 1 }",
        "leaf1 G 14 3 0 6 1 8 2 10 { lin 3 1 8 10 6 5 2 }",
        "proves what is stated if it is multiplied by 1/2: derive that by `{ lin 1 12 1/2 }`",
    ),
    (
        "set_cover",
        "13\nleaf1 G 7 OBJ { lin 3 1 4 10 3 5 1 } 13\nall G 7",
        "13\nleaf1 G 7 OBJ { lin 3 1 4 10 3 5 1 } 13\nall G 9",
        "a `uns` proves the weaker one of its cases: is 7 meant here?",
    ),
    (
        "cutoff",
        "cut L 7 OBJ",
        "cut G -7 3 0 -3 1 -4 2 -5",
        "-1 times the computed one: `sol` gives",
    ),
    (
        "set_cover",
        "leaf1 G 7 OBJ { lin 3 1 4 10 3 5 1 }",
        "leaf1 G 4 2 1 4 2 4 { lin 1 1 4 }",
        "is another constraint meant as the case, or is what was computed to be stated?",
    ),
    # (last references that count something else)
    (
        "set_cover",
        "2 5 9 -6 3 0 } 13\nleaf1 G 7 OBJ { lin 3 1 4 10 3 5 1 } 13",
        "2 5 9 -6 3 0 } 1\nleaf1 G 7 OBJ { lin 3 1 4 10 3 5 1 } 1",
        "[11] is named once: is the last reference a count of that?",
    ),
    (
        "set_cover",
        "2 5 9 -6 3 0 } 13\nleaf1 G 7 OBJ { lin 3 1 4 10 3 5 1 } 13",
        "2 5 9 -6 3 0 } 2\nleaf1 G 7 OBJ { lin 3 1 4 10 3 5 1 } 1",
        "derivation 13 is 2 below [11]: is the last reference counted from its own line?",
    ),
    (
        "set_cover",
        "uns 11 9 12 10",
        "uns 11 9 12 9",
        "with `uns 11 9 12 10` the derivation follows",
    ),
    ("knapsack", "range 20 20", "range -20 -20", "[7] has this bound with the other sign"),
    ("set_cover", "RTP range 7 7", "RTP range 17 17", "does RTP claim more than [13] proves"),
    (
        "parity",
        "RTP infeas\nSOL 0\nDER 1\nodd G 1 0 { rnd 1 0 1/2 } -1\n",
        "RTP range 0 inf\nSOL 0\nDER 0\n",
        "add the derivation `NAME G 0 0 { lin 0 } -1`",
    ),
    (
        "diet",
        "RTP range 16/5 16/5",
        "RTP infeas",
        "so `infeas` is false: claim `range` and two bounds",
    ),
    (
        "diet",
        "RTP range 16/5 16/5",
        "RTP range 16/5 3",
        "the lower bound of the claim is above the upper one: are they exchanged?",
    ),
    (
        "diet",
        "RTP range 16/5 16/5",
        "RTP range -inf 3",
        "16/5 is attained: is that the primal bound",
    ),
    (
        "diet",
        "RTP range 16/5 16/5\nSOL 1\nopt 2 0 3 1 2\n",
        "RTP range 16/5 inf\nSOL 0\n",
        "primal no solution is listed",
    ),
    (
        "diet",
        "RTP range 16/5 16/5",
        "RTP range -inf 16/5",
        "nothing has to be proved of the dual side",
    ),
    # the other problems: a bound left out of a sum, a digit, a continuous variable rounded, a branch, a claim
    (
        "fixed_charge",
        "lin 5 0 1 1 -1 2 -1 6 -4 9 -6",
        "lin 4 0 1 1 -1 2 -1 9 -6",
        "with one more entry, -4 x [6] y1_up, the derivation follows",
    ),
    (
        "fixed_charge",
        "ten G 10 OBJ { lin",
        "ten G 11 OBJ { rnd",
        "a sum is rounded if all coefficients are whole",
    ),
    (
        "fixed_charge",
        "ten G 10 OBJ { lin",
        "ten G 10 OBJ { rnd",
        "is `lin` meant, which doesn't round?",
    ),
    ("fixed_charge", "range 10 10", "range 11 11", "does RTP claim more than [13] proves"),
    (
        "bin_packing",
        "lin 5 0 1 1 1 2 1",
        "lin 4 0 1 1 1",
        "with one more entry, 1 x [2] thing3, the derivation follows",
    ),
    (
        "rounded_sum",
        "lin 1 2 5",
        "lin 1 2 4",
        "with the multiplier 5 in place of 4 at [2] r the derivation follows",
    ),
    (
        "burma14",
        "147 328",
        "147 238",
        "with the multiplier 328 in place of 238 at [147] least4_8 the derivation follows",
    ),
    ("split_cut", "uns 4 2 5 3", "uns 4 3 5 2", "are l1 and l2 exchanged? `uns 4 2 5 3`"),
    ("first_example", "10 14 }", "11 14 }", "14 x [11], this derivation itself\n"),
    ("diet", "VAR 2", "VAR 5", "`INT` was read as a name, and 2 variables before it: is the count"),
    ("set_cover", "10 3 5 1 } 13", "10 3 5 1 -1", "is the brace missing in front of this?"),
    (
        "diet",
        "nm G 0 1 1 1",
        "nm G 0 1 1 1 0 1",
        "2 pairs in line 11 after the count of coefficients, 1: is 2 meant",
    ),
    # a solution
    (
        "diet",
        "opt 2 0 3 1 2",
        "opt 2 0 3 1 1999999/1000000",
        "with 2 in place of 1999999/1000000 at milk (variable 1) all constraints hold",
    ),
    (
        "diet",
        "opt 2 0 3 1 2",
        "2 0 3 1 2",
        "its name is a number: is the name missing?",
    ),
    (
        "diet",
        "opt 2 0 3 1 2",
        "2nd 0",
        "the solution lists no value, so each variable is 0: is its count right?",
    ),
    (
        "diet",
        "range 16/5 16/5\nSOL 1\nopt 2 0 3 1 2",
        "range 16/5 9\nSOL 1\nopt 2 0 3 1 1",
        "change the solution, or leave it out",
    ),
    ("diet", "iron G 9 2 0 1 1 3", "iron G 9 0", "no solution meets this constraint"),
    (
        "knapsack",
        "bc 2 1 1 2 1",
        "bc 0 1 1",
        "lists no value, so each variable is 0: is its count right?",
    ),
    (
        "set_cover",
        "best 2 0 1 1 1",
        "best 3 0 0 1 0 2 0",
        "all values that the solution lists are 0, as is a variable that it doesn't list",
    ),
    ("knapsack", "bc 2 1 1", "bc 2 5 1", "are the pairs INDEX VALUE?"),
    # an expression for a vector, a name that is a sense, quotes, braces without a reason, a keyword that isn't due
    ("knapsack", "OBJ max", "OBJ max 10*a", "the objective is a count and then that many pairs"),
    ("knapsack", "cap L 6", "E EQUAL 6", "write `E` for `=`"),
    ("knapsack", "cap L", 'cap "L"', "is `L` meant? Nothing else may be in its token"),
    ("knapsack", "{ rnd 3 0 13/4 2 1/4 6 1/2 }", "{}", "is the reason missing between the braces?"),
    ("knapsack", "CON 7 6", "ver", "is the count after `min` or `max` too small or missing?"),
]

# The second solution breaks the second constraint.
SECOND = (
    b"VER 1.0 VAR 1 x INT 0 OBJ min 1 0 1 CON 2 2\n c G 0 1 0 1\n  d G 1 1 0 1\n"
    b"RTP range 0 1 SOL 2 a 1 0 1\n   bee 1 0 1/2 DER 0\n"
)

# Texts that are no certificate, or a wrong one, and what is said of them.
STRANGE = [
    (SECOND, ".vipr:5:12\n"),
    (SECOND, "5 |    bee 1 0 1/2 DER 0\n  |            ^^^ this value\n"),
    (SECOND, "constraint 1 `d`: x >= 1  (line 3)\n"),
    (b"", "the text ends where this is wanted: the keyword `VER`"),
    (b"", "the text is empty: is this another file?"),
    (b"\x1f\x8b\x08\0", "gzip -dc FILE | vipr explain"),
    (b"\xef\xbb\xbf% a comment\nVER 1.0", "this begins with a byte order mark"),
    ("VER 1.0".encode("utf-16"), "this looks like UTF-16"),
    (b"<html>", "HTML"),
    (b"\xfd7zXZ\0", "xz -dc FILE | vipr explain"),
    (b"\x28\xb5\x2f\xfd ", "zstd -dc FILE | vipr explain"),
    (b"BZh91AY", "bzip2 -dc FILE | vipr explain"),
    (b'{"problem": {}}\n', "this looks like JSON"),
    (b"NAME diet\nROWS\n N cost\n", "this looks like an MPS file"),
    (b"Minimize\n obj: x\n", "this looks like an LP file"),
    (
        b"% a comment that a carriage return ends\rVER 1.0\r",
        "a comment ends at a line feed, and not at a carriage return",
    ),
    # controls and direction marks in a name, and on the line at fault
    (
        "VER 1.0 VAR 1 x\u202e\u009b31m INT 0 OBJ min 0 CON 1 0 c G 1 1 0 1 RTP infeas SOL 0 DER 1 a\x1b[31m G 1 0 "
        "{ lin 1 0 1 } -1".encode(),
        "computed   x\\xe2\\x80\\xae\\xc2\\x9b31m >= 1",
    ),
    ("VER 1.0 VAR 1 x\u200b\x7f\x07 INT".encode(), "VAR 1 x\\xe2\\x80\\x8b\\x7f\\x07 INT"),
    # a row of many terms, and a sum of many entries
    (
        (
            "VER 1.0 VAR 300 "
            + " ".join(f"v{i}" for i in range(300))
            + " INT 0 OBJ min 300 "
            + " ".join(f"{i} 1" for i in range(300))
            + " CON 30 0 "
            + " ".join(f"c{i} G 1 OBJ" for i in range(30))
            + " RTP infeas SOL 0 DER 1 d G 1 0 { lin 30 "
            + " ".join(f"{i} 1" for i in range(30))
            + " } -1"
        ).encode(),
        ".. (300 terms)",
    ),
]
# What an explanation says of a text: the words of the command, the text, what has to be in the page, and what must not.
FRONT = "VER 1.0 VAR 1 x INT 1 0 OBJ min 1 0 1 CON 1 0 c G 1 1 0 1 RTP infeas SOL "
TWO_LASTS = (
    "VER 1.0 VAR 1 x INT 0 OBJ min 0 CON 2 0 a G 1 1 0 1 b L 0 1 0 1 RTP infeas SOL 0 DER 3 "
    "d G 1 1 0 1 {{ lin 1 0 1 }} {} e G 1 1 0 1 {{ lin 1 2 1 }} {} f G 1 0 {{ lin 2 3 1 1 -1 }} -1"
)
ASSUMED = " ".join(f"a{i} L 0 0 {{ asm }} -1" for i in range(4)) + " b G 1 0 { asm } -1 "
# 0.2 as a number of floating point
FIFTH = "3602879701896397/18014398509481984"

# a tree on x and on y, whose second leaf names the bound of another branch
STALE = (
    "VER 1.0\nVAR 2\nx y\nINT 2 0 1\nOBJ min 0\nCON 3 1\nlow G 0 2 0 -2 1 1\n"
    "high G 2 2 0 2 1 1\nuy L 1 1 1 1\nRTP infeas\nSOL 0\nDER 9\na L 0 1 0 1 { asm } -1\n"
    "b G 1 1 0 1 { asm } -1\np L 0 1 1 1 { asm } -1\nq G 1 1 1 1 { asm } -1\n"
    "d G 1 0 { lin 3 1 1 3 -2 5 -1 } -1\ne G 1 0 { lin 3 1 1 3 -2 2 -1 } -1\n"
    "f G 1 0 { uns 7 5 8 6 } -1\ng G 1 0 { lin 3 0 1 4 2 5 -1 } -1\n"
    "h G 1 0 { uns 9 3 10 4 } -1\n"
)
TREE = STALE.replace("4 2 5 -1", "4 2 2 -1")
SET_COVER = (PROBLEMS / "set_cover.vipr").read_text()
TRUE = [
    # the bound of another branch is left
    (
        [],
        STALE,
        [
            "still assumed: [5] p  y <= 0  (line 15)\n  it comes in at [10] g  (line 20)\n",
            "[9] f  (line 19) takes [5] away from [7] alone\n",
            "[10] follows with [2] uy in place of [5], too: is [5] a bound of another branch?",
        ],
        ["left out"],
    ),
    # a derivation names a case in place of what joins it
    (
        [],
        TREE.replace("uns 9 3", "uns 7 3"),
        [
            "[11] h  (line 21) names [7], from which [9] f  (line 19) takes [5] away: "
            "is [9] meant in place of [7]?"
        ],
        ["another branch"],
    ),
    # the last join is missing
    *[
        (
            [],
            text.replace(old, new).replace(last, ""),
            [f"add the derivation `{step} }} -1`, and 1 to the count after DER"],
            ["open"],
        )
        for text, old, new, last, step in (
            (
                SET_COVER,
                "DER 5",
                "DER 4",
                "all G 7 OBJ { uns 11 9 12 10 } -1\n",
                "NAME G 7 OBJ { uns 12 10 11 9",
            ),
            (
                TREE,
                "DER 9",
                "DER 8",
                "h G 1 0 { uns 9 3 10 4 } -1\n",
                "NAME G 1 0 { uns 10 4 9 3",
            ),
        )
    ],
    # two assumptions say the same, and the wrong one is taken away
    (
        [],
        SET_COVER.replace("DER 5", "DER 6")
        .replace("up G", "same L 0 1 0 1 { asm } -1\nup G")
        .replace("} 13", "} -1")
        .replace("1 4 10 3", "1 4 11 3")
        .replace("uns 11 9 12 10", "uns 12 10 13 11"),
        ["takes [10] away, which says the same as [9]: is `uns 12 9 13 11` meant?"],
        ["open"],
    ),
    # no derivation takes an assumption away, and none is the other branch
    (
        [],
        "VER 1.0 VAR 1 x INT 0 OBJ min 1 0 1 CON 0 0 RTP range 1 inf SOL 0 DER 2 "
        "a G 2 1 0 2 { asm } -1 d G 1 OBJ { lin 1 0 1/2 } -1",
        ["no `uns` takes [0] away: is one left out, or is a reason left out in place of `asm`?"],
        ["bounds the objective"],
    ),
    # the goal in another measure, by a derivation or by a constraint of the problem
    (
        [],
        "VER 1.0 VAR 1 x INT 0 OBJ max 1 0 2 CON 1 1 u L 4 1 0 1 RTP range -inf 6 SOL 0 DER 2 "
        "a L 3 1 0 1 { asm } -1 d G -6 1 0 -2 { lin 1 1 -2 } -1",
        ["no constraint has this row\n  = help: is its derivation left out"],
        ["multiplied"],
    ),
    (
        [],
        "VER 1.0 VAR 1 x INT 0 OBJ max 1 0 2 CON 1 1 u L 3 1 0 1 RTP range -inf 6 SOL 0 DER 1 "
        "d G -6 1 0 -2 { lin 1 0 -2 } -1",
        [
            "[1] d  (line 1) proves the claim if it is multiplied by -1: "
            "add the derivation `NAME L 6 OBJ { lin 1 1 -1 } -1`"
        ],
        [],
    ),
    (
        [],
        "VER 1.0 VAR 1 x INT 0 OBJ max 1 0 2 CON 1 1 u L 3 1 0 1 RTP range -inf 6 SOL 0 DER 0",
        ["[0] u  (line 1) proves the claim if it is multiplied by 2"],
        [],
    ),
    # sums that are absurd and state what is true
    (
        [],
        "VER 1.0 VAR 1 x INT 0 OBJ min 0 CON 2 0 a G 1 1 0 1 b L 0 1 0 1 RTP infeas SOL 0 DER 2 "
        "d G 0 0 { lin 2 0 1 1 -1 } -1 e L 0 0 { lin 1 2 0 } -1",
        [
            "the sum of [2] d  (line 1) is absurd, and it states 0 >= 0, which is always true, "
            "as 2 sums do"
        ],
        [],
    ),
    (
        [],
        "VER 1.0 VAR 1 x INT 0 OBJ min 0 CON 2 0 a G 1 1 0 1 b L 1 1 0 1 RTP infeas SOL 0 DER 1 "
        "d G 0 0 { lin 2 0 1 1 -1 } -1",
        ["is its derivation left out"],
        ["absurd, and"],
    ),
    # the first derivation that names a constraint as its last reference, and none that is above
    (
        [],
        TWO_LASTS.replace("DER 3", "DER 4")
        .replace("f G", "g G 1 1 0 1 {{ lin 1 2 1 }} -1 f G")
        .format(3, -1),
        ["3 is the first derivation that names [2], and 4 the last one: write the last one"],
        ["a count of that"],
    ),
    (
        [],
        TWO_LASTS.replace("DER 3", "DER 4")
        .replace("f G", "g G 1 1 0 1 {{ lin 1 2 1 }} -1 f G")
        .format(2, -1),
        ["[2] is named 2 times: is the last reference a count of that? It is the index of"],
        ["here none"],
    ),
    (
        [],
        TWO_LASTS.format(1, 1),
        ["[2] is named once: ", "the constraint; here none is above the index of its own line\n"],
        ["derivations from 0"],
    ),
    (
        [],
        TWO_LASTS.format(0, 0),
        [
            "the last reference of [2], 0, is not above 2 itself, so nothing may name [2]",
            "no last reference in DER is above the index of its own line",
        ],
        ["was dropped after"],
    ),
    # what a derivation names comes later
    (
        [],
        "VER 1.0 VAR 0 INT 0 OBJ min 0 CON 1 0 c G 0 0 RTP infeas SOL 0 DER 3\n"
        "u G 1 0 { uns 2 4 2 3 } -1\nd G 1 0 { lin 1 0 1 } -1\ne G 1 0 { asm } -1\n",
        [
            "case 1 gives [2] d, which comes later  (line 3)\n",
            "assuming  [4], which is not before this derivation\n",
            "[2] d  (line 3) comes later: a derivation comes after all that it names",
        ],
        [],
    ),
    # a sum whose coefficients aren't whole, and no change makes them so
    (
        [],
        "VER 1.0 VAR 1 x INT 1 0 OBJ min 0 CON 1 0 c G 1 1 0 2 RTP range -inf inf SOL 0 DER 1 "
        "d G 5 1 0 1 { rnd 1 0 3/4 } -1",
        ["; multiples of bounds in the sum can make the coefficients whole\n"],
        ["is `lin` meant"],
    ),
    # a listed solution says that a variable is no integer one, and that a number is right
    (
        [],
        "VER 1.0 VAR 2 x s INT 1 0 OBJ min 0 CON 1 0 c G 1/2 2 0 1 1 1 RTP range -inf inf "
        "SOL 1 p 1 1 1/2 DER 1 d G 1 2 0 1 1 1 { rnd 1 0 1 } -1",
        [
            "s (variable 1) is not an integer variable, and a listed solution has 1/2 there",
            "derive a cut over other variables by a split, with `asm`, `lin` and `uns`",
        ],
        ["left out after INT", "is `lin` meant"],
    ),
    # last references that count derivations from 0, or have two digits exchanged
    (
        [],
        TWO_LASTS.format(1, 2),
        ["1 is not above 2: do last references count derivations from 0? Then add 2 to each: 3"],
        ["digits exchanged"],
    ),
    (
        [],
        "VER 1.0 VAR 1 x INT 0 OBJ min 0 CON 2 0 a G 1 1 0 1 b L 0 1 0 1 RTP infeas SOL 0 DER 20\n"
        + "d G 1 1 0 1 { lin 1 0 1 } 12\n"
        + "".join(f"e{i} G 0 0 {{ lin 0 }} -1\n" for i in range(18))
        + "f G 1 0 { lin 2 2 1 1 -1 } -1\n",
        ["are digits exchanged? The last derivation that names it is 21, and 12 is written"],
        ["do last references count"],
    ),
    # a constraint rests on an assumption that isn't one of the first four
    (
        [],
        "VER 1.0 VAR 1 x INT 0 OBJ min 1 0 1 CON 0 0 RTP range 1 inf SOL 0 DER 9 "
        + ASSUMED
        + "e G 1 1 0 1 { asm } -1 f G 1 1 0 1 { lin 5 0 -1 1 -1 2 -1 3 -1 5 1 } -1 u0 G 1 1 0 1 { uns 6 0 4 4 } -1 "
        "u1 G 1 1 0 1 { uns 7 1 4 4 } -1",
        ["u0  objective >= 1  (line 1), strong enough, rests on [1] [2] [3] [5]"],
        ["no assumption\n"],
    ),
    # the index of a constraint that isn't earlier is behind a fault of the text
    (
        [],
        "VER 1.0 VAR 0 INT 0 OBJ min 0 CON 0 0 RTP infeas SOL 0 DER 2 a G 1 0 { lin 1 1 1 } -1 b G one",
        ["1 x [1] b, which comes later  (line 1)\n", "the problem has 0"],
        ["isn't one of this text"],
    ),
    # many entries name the constraint at fault: one is marked
    (
        [],
        "VER 1.0 VAR 0 INT 0 OBJ min 0 CON 1 0 c G 0 0 RTP infeas SOL 0 DER 1 a G 1 0 { lin 600"
        + " 7 1" * 600
        + " } -1",
        ["(600 entries)", "indices count from 0: the problem", "= see: docs/FORMAT.md, cause 31"],
        ["<-- entry"],
    ),
    # an entry with multiplier 0 needs nothing
    (
        [],
        "VER 1.0 VAR 0 INT 0 OBJ min 0 CON 1 0 c G 0 0 RTP infeas SOL 0 DER 3 a G 1 0 { asm } 1 "
        "b G 1 0 { asm } 1 d G 1 0 { asm } -1 e G 1 0 { lin 3 1 0 0 1 1 1 } -1".replace(
            "{ asm } 1", "{ lin 0 } 1"
        )
        .replace("DER 3", "DER 4")
        .replace("G 1 0 { lin 0 } 1", "G 0 0 { lin 0 } 1"),
        [" " * 63 + "^ this index", "write 4 or -1 here"],
        ["<-- entry"],
    ),
    # counts with leading zeros
    (
        [],
        "VER 1.0 VAR " + "0" * 80 + "1 x INT 0 OBJ mid 0",
        ["wanted `min` or `max`"],
        ["wanted the number"],
    ),
    # by the second profile a bound of a whole objective is rounded
    (
        ["--profile", "2"],
        "VER 1.0 VAR 1 x INT 1 0 OBJ min 1 0 1 CON 0 0 RTP range 1 inf SOL 0 DER 1 "
        "a G 1/2 1 0 1 { asm } -1",
        ["objective >= 1/2  (line 1), strong enough, rests on [0]"],
        ["too weak"],
    ),
    (
        [],
        "VER 1.0 VAR 1 x INT 1 0 OBJ min 1 0 1 CON 0 0 RTP range 1 inf SOL 0 DER 1 a G 1/2 1 0 1 { asm } -1",
        ["objective >= 1/2  (line 1), too weak by 1/2, rests on [0]"],
        ["strong enough"],
    ),
    # constraints of the problem come near, too, and the nearest is first
    (
        [],
        "VER 1.0 VAR 1 x INT 0 OBJ min 1 0 1 CON 1 0 c G 1/2 1 0 1 RTP range 1 inf SOL 0 DER 4 "
        "d0 G 9/10 1 0 1 { asm } -1 d1 G 0 1 0 1 { asm } -1 d2 G 0 1 0 1 { asm } -1 d3 G 0 1 0 1 { asm } -1",
        [
            "nearest:\n    [1] d0  objective >= 9/10",
            "[0] c  objective >= 1/2  (line 1), too weak by 1/2, rests on no assumption",
        ],
        ["no constraint has this row"],
    ),
    # two assumptions that leave no gap are no split by the first profile
    (
        [],
        "VER 1.0 VAR 1 x INT 1 0 OBJ min 0 CON 0 0 RTP infeas SOL 0 DER 3 l L 1/2 1 0 1 { asm } -1 "
        "g G 2/3 1 0 1 { asm } -1 u G 0 0 { uns 0 0 1 1 } -1",
        ["`--profile 2` accepts these", "with k whole"],
        ["gap"],
    ),
    (
        ["--profile", "2"],
        "VER 1.0 VAR 1 x INT 1 0 OBJ min 0 CON 0 0 RTP infeas SOL 0 DER 3 l L 1/2 1 0 1 { asm } -1 "
        "g G 5/2 1 0 1 { asm } -1 u G 0 0 { uns 0 0 1 1 } -1",
        ["h rounded up is at most k rounded down plus 1"],
        ["with k whole", "accepts"],
    ),
    # a solution that lists zeros lists values, and one whose count is 0 lists none
    (
        [],
        FRONT + "1 s 1 0 0 DER 0",
        ["all values that the solution lists are 0, as is a variable that it doesn't list"],
        ["lists no value"],
    ),
    ([], FRONT + "1 s 0 0 0 DER 0", ["the solution lists no value, so each"], ["all values"]),
    (
        [],
        "VER 1.0 VAR 1 x INT 0 OBJ max 1 0 1 CON 1 0 c L 1 1 0 1 RTP range 1 1 SOL 1 bc 0 0 1 DER 0",
        ["solution 0 `bc` lists no value, so each variable is 0: is its count right?"],
        ["is that the primal bound"],
    ),
    (
        [],
        "VER 1.0 VAR 1 x INT 0 OBJ max 1 0 1 CON 1 0 c L 1 1 0 1 RTP range 1 1 SOL 1 bc 1 0 0 DER 0",
        ["0 is attained: is that the primal bound"],
        ["lists no value"],
    ),
    # an assumption about another variable than that of the other case
    (
        [],
        "VER 1.0 VAR 2 x y INT 2 0 1 OBJ min 0 CON 0 0 RTP infeas SOL 0 DER 3 a L 0 1 0 1 { asm } -1 b G 1 1 1 1 { asm } -1 "
        "u G 0 0 { uns 0 0 1 1 } -1",
        ["one is about x, and the other about y: is the variable's index wrong in one of them?"],
        [],
    ),
    # a sign that is lost in a row that a solution breaks
    (
        [],
        "VER 1.0 VAR 3 x y z INT 0 OBJ min 0 CON 1 0 flow E 1 3 0 1 1 1 2 1 RTP range 0 0 SOL 1 s 2 0 2 1 1 DER 0",
        ["is -1 meant in place of 1 at y? Then both sides are the same"],
        ["in place of `E`"],
    ),
    # a sign that is lost in what a derivation states, and two variables that are exchanged
    *[
        (
            [],
            f"VER 1.0 VAR 2 x y INT 0 OBJ min 0 CON 2 0 a G 1 2 0 1 1 -1 b G 2 2 0 1 1 -1 RTP infeas SOL 0 DER 1 d G 3 {row} {{ lin 2 0 1 1 1 }} -1",
            [f"with {change} in the stated row the rows are the same: is that meant?"],
            [],
        )
        for row, change in (
            ("2 0 2 1 2", "-2 in place of 2 at y"),
            ("2 0 -2 1 2", "the coefficients of x and y exchanged"),
        )
    ],
    # the coefficients of two variables are exchanged in a row
    (
        [],
        "VER 1.0 VAR 3 x y z INT 0 OBJ min 3 0 2 1 3 2 1 CON 2 0 a G 4 2 0 3 1 2 b G 1 1 2 1 RTP range 5 inf SOL 0 DER 1 "
        "d G 5 OBJ { lin 2 0 1 1 1 } -1",
        ["with the coefficients of x and y exchanged in the stated row the rows are the same"],
        [],
    ),
    (
        [],
        "VER 1.0 VAR 3 x y z INT 0 OBJ min 2 0 5 1 5 CON 2 0 a G 4 2 0 3 1 2 b G 1 2 0 3 1 2 RTP range 5 inf SOL 0 DER 1 "
        "d G 5 OBJ { lin 2 0 1 1 1 } -1",
        ["with the coefficients of x and y exchanged in [0] a  (line 1) the rows are the same"],
        [],
    ),
    # multipliers that are rounded, in decimal or binary digits
    *[
        (
            [],
            f"VER 1.0 VAR 2 x y INT 0 OBJ min 2 0 1 1 1 CON 2 0 a G {bound} 2 0 {large} 1 {small} b G {bound} 2 0 {small} 1 {large} "
            f"RTP range 2 inf SOL 0 DER 1 d G 2 OBJ {{ lin 2 0 {number} 1 {number} }} -1",
            [
                f"with {meant} for {number}, and such a fraction for each rounded multiplier, the sum has the stated row"
            ],
            ["with one more entry"],
        )
        for number, meant, bound, large, small in (
            ("3333/10000", "1/3", 3, 2, 1),
            (FIFTH, "1/5", 5, 3, 2),
        )
    ],
    # a coefficient of floating point
    (
        [],
        f"VER 1.0 VAR 2 x y INT 0 OBJ min 2 0 1 1 1 CON 2 0 a G 1 2 0 {FIFTH} 1 1 b G 0 1 0 1 RTP range 1 inf SOL 0 DER 1 "
        "d G 1 OBJ { lin 2 0 1 1 4/5 } -1",
        [f"with 1/5 in place of {FIFTH} at x in [0] a  (line 1) the rows are the same"],
        [],
    ),
    (
        [],
        f"VER 1.0 VAR 2 x y INT 0 OBJ min 2 0 1 1 2 CON 1 0 a G 1 2 0 {FIFTH} 1 {FIFTH} RTP range 1 inf SOL 0 DER 1 "
        "d G 1 OBJ { lin 1 0 1 } -1",
        [f"{FIFTH} is near 1/5, and its denominator is a power of 2"],
        [],
    ),
    # lines that were sorted by name
    (
        [],
        "VER 1.0 VAR 3 x y z INT 0 OBJ min 2 0 1 1 1 CON 3 0 C1 G 1 1 0 1 C3 G 0 1 2 1 C2 G 1 1 1 1 RTP range 2 inf SOL 0 DER 1 "
        "d G 2 OBJ { lin 2 0 1 1 1 } -1",
        [
            "[1] is `C3`, and [2] is `C2`: are the lines in another order than they were written, as by name?"
        ],
        [],
    ),
    # of a sum with both senses the entry is marked that gives another sense than the stated one
    (
        [],
        "VER 1.0 VAR 3 x y z INT 0 OBJ min 0 CON 2 0 a L 1 2 0 1 1 2 b G 1 2 0 3 2 1 RTP infeas SOL 0 DER 1 "
        "d G 1 0 { lin 2 0 1 1 1 } -1",
        ["entry 1 gives >=, and the sum before it is <=", "<-- entry 0"],
        ["<-- entry 1"],
    ),
    # a shift of all indices comes before another constraint in the place of one
    (
        [],
        "VER 1.0 VAR 3 x y z INT 0 OBJ min 2 1 1 2 1 CON 4 0 a G 1 1 0 1 b G 2 1 1 1 c G 3 1 2 1 e G 0 1 0 2 RTP range 5 inf SOL 0 "
        "DER 1 d G 5 OBJ { lin 2 0 1 1 1 } -1",
        ["  = help: with every index one more the derivation follows (indices count from 0"],
        ["~"],
    ),
    # multipliers that are all other ones, with what they have in common
    *[
        (
            [],
            f"VER 1.0 VAR 4 x y z w INT 0 OBJ min 0 CON {rows} RTP range -inf inf SOL 0 DER 1 {step} -1",
            [f"with `lin {parts}` the derivation follows{question}\n"],
            [" ~ "],
        )
        for rows, step, parts, question in (
            (
                "4 0 a E 1 2 0 1 1 1 b E 0 2 0 1 1 -1 c E 1 1 3 1 e G 0 1 2 1",
                "d G 2 3 0 2 2 1 3 1 { lin 4 0 -1 1 -1 2 -1 3 1 }",
                "4 0 1 1 1 2 1 3 1",
                ": do the multipliers of all equations have the other sign?",
            ),
            (
                "3 0 a G 1 2 0 1 1 1 b G 0 2 0 1 1 -1 c G 0 1 2 1",
                "d G 1 2 0 2 2 1 { lin 3 0 -1 1 -1 2 1 }",
                "3 0 1 1 1 2 1",
                ": do these multipliers have the other sign?",
            ),
            (
                "2 0 a G 2 1 0 2 b G 3 1 1 3",
                "d G 2 2 0 1 1 1 { lin 2 0 2 1 3 }",
                "2 0 1/2 1 1/3",
                ": are fractions written upside down?",
            ),
            (
                "2 0 a G 2 1 0 2 b G 3 1 1 3",
                "d G 2 2 0 1 1 1 { lin 2 0 0 1 0 }",
                "2 0 1/2 1 1/3",
                ": are the multipliers rounded, or cut to whole numbers or fewer digits?",
            ),
            (
                "2 0 a G 2 1 0 2 b G 3 1 1 3",
                "d G 2 2 0 1 1 1 { lin 2 0 5 1 7 }",
                "2 0 1/2 1 1/3",
                "",
            ),
            # what rounded multipliers of a contradiction are multiples of
            (
                "2 0 a G 2 1 0 2 b L 0 1 0 3",
                "d G 1 0 { lin 2 0 299/100 1 -199/100 }",
                "2 0 3 1 -2",
                ": are the multipliers rounded, or cut to whole numbers or fewer digits?",
            ),
        )
    ],
    # the problem's constraints are counted in another order
    *[
        (
            [],
            "VER 1.0 VAR 4 x y z w INT 0 OBJ min 0 CON 4 2 a G 1 1 0 1 b G 2 1 1 1 c G 3 1 2 1 e G 4 1 3 1 "
            f"RTP range -inf inf SOL 0 DER 1 d G {step} }} -1",
            [f"with `lin {parts}` the derivation follows: {question}?\n"],
            [],
        )
        for step, parts, question in (
            (
                "7 2 0 1 2 2 { lin 2 2 1 0 2",
                "2 0 1 2 2",
                "are the first 2 constraints counted after the other 2",
            ),
            (
                "5 2 0 1 1 2 { lin 2 3 1 0 2",
                "2 0 1 1 2",
                "is the first constraint counted after the other 3",
            ),
        )
    ],
    (
        [],
        "VER 1.0 VAR 4 x y z w INT 0 OBJ min 0 CON 3 0 a G 1 2 0 1 2 1 b G 2 2 1 1 3 1 c G 0 0 RTP range -inf inf SOL 0 DER 1 "
        "d G 5 4 0 1 1 2 2 1 3 2 { lin 2 0 2 1 1 } -1",
        ["with `lin 2 1 2 0 1` the derivation follows: are [0] and [1] exchanged?"],
        [],
    ),
    (
        [],
        "VER 1.0 VAR 3 x y z INT 0 OBJ min 0 CON 3 0 a E 1 1 0 1 b E 2 1 1 1 c G 3 1 2 1 RTP range -inf inf SOL 0 DER 1 "
        "d G 6 3 0 1 1 1 2 1 { lin 3 0 1 2 1 4 1 } -1",
        ["with `lin 3 0 1 1 1 2 1` the derivation follows: is each of the 2 equations of the"],
        [],
    ),
    (
        [],
        "VER 1.0 VAR 16 "
        + " ".join(f"x{index}" for index in range(16))
        + " INT 0 OBJ min 0 CON 14 0 c0 G 0 2 0 1 14 1 c1 G 1 2 1 1 15 1 "
        + " ".join(f"c{index} G {index} 1 {index} 1" for index in range(2, 14))
        + " RTP range -inf inf SOL 0 DER 1 d G 92 16 "
        + " ".join(f"{index} {1 + (index in (1, 15))}" for index in range(16))
        + " { lin 14 0 2 "
        + " ".join(f"{index} 1" for index in range(1, 14))
        + " } -1",
        ["10 1 11 1 ..` the derivation follows: are [0] and [1] exchanged?"],
        [],
    ),
    # several lines are left out, or are too many
    *[
        (
            [],
            "VER 1.0 VAR 5 x y z v w INT 0 OBJ min 0 CON 5 0 a G 1 1 0 1 b G 2 1 1 1 c G 3 1 2 1 e G 4 1 3 1 f G 5 1 4 1 "
            f"RTP range -inf inf SOL 0 DER 1 d G {step} }} -1",
            [f"with every index from {words}"],
            [],
        )
        for step, words in (
            (
                "6 3 0 1 1 1 2 1 { lin 3 0 1 3 1 4 1",
                "3 on 2 less the derivation follows: are 2 lines left out before [1] b  (line 1)?",
            ),
            (
                "10 3 0 1 3 1 4 1 { lin 3 0 1 1 1 2 1",
                "1 on 2 more the derivation follows: are there 2 lines too many before [3] e",
            ),
        )
    ],
    # bounds of variables are left out
    (
        [],
        "VER 1.0 VAR 4 x y z w INT 0 OBJ min 0 CON 4 0 a G 3 4 0 1 1 1 2 1 3 1 b L 0 1 2 1 c L 0 1 3 1 e L 2 1 3 1 "
        "RTP range -inf inf SOL 0 DER 1 d G 3 2 0 1 1 1 { lin 1 0 1 } -1",
        [
            "with 2 more entries, -1 x [1] b, -1 x [2] c, the derivation follows: are bounds of variables left out?"
        ],
        [],
    ),
    # a right-hand side or a sense above is another one
    *[
        (
            [],
            f"VER 1.0 VAR 2 x y INT 0 OBJ min 0 CON 2 0 {rows} RTP range -inf inf SOL 0 DER 1 d {step} }} -1",
            [f"  = help: with {words} the derivation follows: "],
            [],
        )
        for rows, step, words in (
            (
                "a G 1 1 0 1 b G 3/2 1 1 1/2",
                "G 5 2 0 1 1 1 { lin 2 0 1 1 2",
                "2 in place of 1 in [0] a  (line 1)",
            ),
            (
                f"a G {5 - 2**32} 1 0 1 b G 0 1 1 1",
                "G 5 1 0 1 { lin 1 0 1",
                f"5, which is 2^32 more, in place of {5 - 2**32} in [0] a  (line 1)",
            ),
            (
                f"a L {2**32 - 5} 1 0 1 b G 0 1 1 1",
                "L -5 1 0 1 { lin 1 0 1",
                f"-5, which is 2^32 less, in place of {2**32 - 5} in [0] a  (line 1)",
            ),
            (
                "a G 1 1 0 1 b L 2 1 1 1",
                "L 3 2 0 1 1 1 { lin 2 0 1 1 1",
                "<= in place of >= in [0] a  (line 1)",
            ),
            (
                "a L 1 1 0 1 b G 2 1 1 1",
                "G 3 2 0 1 1 1 { lin 2 0 1 1 1",
                ">= in place of <= in [0] a  (line 1)",
            ),
        )
    ],
    # a contradiction that isn't one has its caret at the reason
    (
        [],
        "VER 1.0 VAR 1 x INT 0 OBJ min 0 CON 2 0 a G 1 1 0 1 b L 1 1 0 1 RTP infeas SOL 0 DER 1 d G 1 0 { lin 2 0 1 1 -1 } -1",
        [
            "^^^ this reason",
            "the rows cancel, and what is left is no contradiction: is a right-hand",
        ],
        ["this right-hand side"],
    ),
    # two assumptions that are no split: the other side of each, another spelling, a third case, and a number that was cut
    *[
        (
            [],
            f"VER 1.0 VAR 2 x y INT 2 0 1 OBJ min 0 CON 0 0 RTP infeas SOL 0 DER {cases + 1} {steps} "
            f"u G 0 0 {{ uns 0 0 {cases - 1} {cases - 1} }} -1",
            words,
            [],
        )
        for cases, steps, words in (
            (
                2,
                "a L 3 1 0 1 { asm } -1 b G 3 1 0 1 { asm } -1",
                ["x <= 3 and x >= 4 would be a split", "x >= 3 and x <= 2 would be a split"],
            ),
            (
                2,
                "a L 3 1 0 1 { asm } -1 b G 4 1 1 1 { asm } -1",
                ["x <= 3 and x >= 4 would be a split", "y >= 4 and y <= 3 would be a split"],
            ),
            (
                2,
                "a L 3 1 0 1 { asm } -1 b L -4 1 0 -1 { asm } -1",
                ["with x >= 4 for -x <= -4, which says the same, they are a split"],
            ),
            (
                2,
                "a L 3/2 1 0 1/2 { asm } -1 b G 4 1 0 1 { asm } -1",
                ["with x <= 3 for 1/2 x <= 3/2, which says the same, they are a split"],
            ),
            (
                3,
                "a L 0 1 0 1 { asm } -1 b G 1 1 0 1 { asm } -1 c G 2 1 0 1 { asm } -1",
                ["[1] is an assumption between them: is it a third case?"],
            ),
            (
                2,
                "a L -3 1 0 1 { asm } -1 b G -1 1 0 1 { asm } -1",
                ["is >= -2 meant in place of >= -1? A negative number that is cut"],
            ),
        )
    ],
    # a vector of the objective has nothing in front of it
    (
        [],
        "VER 1.0 VAR 1 a INT 0 OBJ max 10*a 1 0 10",
        ["the objective is a count and then that many pairs INDEX COEFFICIENT"],
        ["right-hand side"],
    ),
    # a constraint that is called as a sense is
    *[
        (
            [],
            f"VER 1.0 VAR 1 a INT 0 OBJ max 0 CON 1 0 {name} {sense} 6 1 0 1",
            [f"write `{letter}` for"],
            ["is it the sense"],
        )
        for name, sense, letter in (("E", "EQUAL", "E"), ("L", "leq", "L"), ("G", ">=", "G"))
    ],
    (
        [],
        "VER 1.0 VAR 1 a INT 0 OBJ max 0 CON 1 0 E at_most 6 1 0 1",
        ["the name in front of this is `E`, `L` or `G`: is it the sense, and the name missing?"],
        ["was read"],
    ),
    # the number that is past the limit is one in between, and each coefficient fits
    *[
        (
            [],
            "VER 1.0 VAR 1 x INT 0 OBJ min 0 CON 2 0 "
            f"a G 0 1 0 {first} b G 0 1 0 {second} RTP infeas SOL 0 DER 1 d G 0 1 0 1 {{ lin 2 0 1 1 1 }} -1",
            [f"{first} + {second} at x: over the common denominator {part} has {bits} bits\n"],
            ["makes a number"],
        )
        for first, second, part, bits in (
            (f"{2**126 + 1}/3", "1/5", "the first numerator", 129),
            ("1/5", f"{2**126 + 1}/3", "the second numerator", 129),
            (2**126, 2**126, "the sum of the numerators", 128),
            (f"1/{2**80}", f"1/{3**40}", "the denominator of the sum", 144),
        )
    ],
    (
        [],
        "VER 1.0 VAR 1 x INT 0 OBJ min 0 CON 1 0 "
        f"a G {2**126} 1 0 1 RTP infeas SOL 0 DER 1 d G 0 1 0 1 {{ lin 2 0 1 0 1 }} -1",
        [f"{2**126} + {2**126} at the right-hand side: over the common denominator the sum of"],
        ["makes a number"],
    ),
    (
        [],
        "VER 1.0 VAR 2 x y INT 0 OBJ min 0 CON 1 0 "
        f"a G 0 2 0 {2**126} 1 {2**126} RTP infeas SOL 1 s 2 0 1 1 1 DER 0",
        [
            f"{2**126} + {2**126} at y: over the common denominator the sum of the numerators has 128"
        ],
        [],
    ),
    # a keyword in small letters is asked for where it is due, or a later one is
    (
        [],
        "VER 1.0 VAR 1 x INT 0 OBJ min 0 ver",
        ["is the count after `min` or `max` too small or missing?"],
        ["`VER`"],
    ),
    ([], "VER 1.0 VAR 1 x INT 0 OBJ min 0 Con 0 0", ["is `CON` meant?\n"], ["In front"]),
    # the pairs of a solution have values
    ([], FRONT + "1 s 1 7 1 DER 0", ["are the pairs INDEX VALUE?"], ["COEFFICIENT"]),
    ([], FRONT + "1 s 1 1/2 1 DER 0", ["are the pairs INDEX VALUE?"], ["COEFFICIENT"]),
    ([], FRONT + "1 s 2 0 1 0 1 DER 0", ["a list of all values, and not"], ["COEFFICIENT"]),
    ([], FRONT + "1 s x 0 1 DER 0", ["wanted the number of values"], ["coefficients"]),
    # no variable is an integer one
    (
        [],
        "VER 1.0 VAR 1 x INT 0 OBJ min 1 0 1 CON 1 0 a G 1/2 1 0 1 RTP range 1/2 inf SOL 0 DER 1 "
        "d G 1/2 1 0 1 { rnd 1 0 1 } -1",
        [
            "x >= 1/2\n  = help: INT lists no variable: is it left out?\n    x (variable 0) is not an"
        ],
        ["the derivation follows", " ~ "],
    ),
    # of a sum of both senses the entry is marked that the help changes
    (
        [],
        "VER 1.0 VAR 2 x y INT 0 OBJ min 0 CON 2 0 a L 4 2 0 1 1 1 b G 1 1 1 1 RTP infeas SOL 0 DER 1 "
        "d L 3 1 0 1 { lin 2 0 -1 1 -1 } -1",
        [
            "has a sum of both senses: entry 1 gives <=, and the sum before it is >=\n",
            "with the multiplier 1 in place of -1 at [0] a the derivation follows",
            "(line 1) <-- entry 0 gives >=, and <= is stated\n",
        ],
        ["<-- entry 1"],
    ),
    # a bound on the objective is proved, and infeasibility is claimed
    *[
        (
            [],
            f"VER 1.0 VAR 1 x INT 0 OBJ {goal} 1 0 2 CON 1 0 a {sense} 5 1 0 1 RTP infeas SOL 0 DER 3 "
            f"w {sense} {weak} OBJ {{ lin 1 0 2 }} -1 d {sense} 10 OBJ {{ lin 1 0 2 }} -1 n {sense} 10 OBJ {{ asm }} -1",
            [
                f"[2] says objective {sign} 10 and rests on no assumption: is `RTP range {claim}` meant?"
            ],
            [],
        )
        for goal, sense, weak, sign, claim in (
            ("min", "G", 9, ">=", "10 inf"),
            ("max", "L", 11, "<=", "-inf 10"),
        )
    ],
    # of the other sense a constraint has the very bound, and a weaker one comes nearer
    (
        [],
        "VER 1.0 VAR 1 x INT 0 OBJ min 1 0 1 CON 2 0 a G 0 1 0 1 b L 3 1 0 1 RTP range 3 inf SOL 0 DER 0",
        ["[1] is the other way round: is `OBJ max` meant?"],
        ["does RTP claim more"],
    ),
    # decimals: from five places on they are likely to be rounded
    (
        [],
        "VER 1.0 VAR 1 x INT 0 OBJ min 1 0 2.416667",
        ["write 2416667/1000000 if that is exact;"],
        [],
    ),
    ([], "VER 1.0 VAR 1 x INT 0 OBJ min 1 0 2.4167", ["write 24167/10000\n"], ["exact"]),
    # what is exact is written exactly
    *[
        (
            [],
            f"VER 1.0 VAR 1 x INT 0 OBJ min 1 0 1 CON 1 0 a G {bound} 1 0 1 RTP range {bound} inf SOL 0 DER 0",
            [f"  {bound} {words}\n"],
            [],
        )
        for bound, words in (
            ("16/5", "= 3.2"),
            ("-81/4", "= -20.25"),
            ("1/1024", "= 0.0009765625"),
            ("10/3", "is about 3.33333"),
            (f"1/{2**20}", "is about 9.53674e-7"),
            (f"1/{2**18}", "= 0.000003814697265625"),
            (f"{3 * 10**37 + 1}/2", "= 15000000000000000000000000000000000000.5"),
            (f"{2**126 + 1}/2", "is about 4.25353e37"),
        )
    ],
    # a token with something else in it, or in another spelling
    *[
        ([], text, [f"is `{token}` meant? Nothing else may be in its token"], [])
        for token, text in (
            ("L", 'VER 1.0 VAR 1 x INT 0 OBJ min 0 CON 1 0 cap "L" 6 1 0 1'),
            ("1.0", "VER 1.0; VAR"),
            ("VAR", "VER 1.0 VAR: 1 x"),
            ("1", "VER 1.0 VAR (1) x"),
            ("0", "VER 1.0 VAR 1 x INT 1 [0]"),
            ("6", "VER 1.0 VAR 1 x INT 0 OBJ min 0 CON 1 0 cap L =6 1 0 1"),
            ("-1/2", "VER 1.0 VAR 1 x INT 0 OBJ min 1 0 (-1/2)"),
            ("7", "VER 1.0 VAR 0 INT 0 OBJ min 0 CON 0 0 RTP range [7,"),
            ("inf", "VER 1.0 VAR 0 INT 0 OBJ min 0 CON 0 0 RTP range 7 inf]"),
            ("range", "VER 1.0 VAR 0 INT 0 OBJ min 0 CON 0 0 RTP range: 7"),
            ("lin", FRONT + "0 DER 1 a G 1 0 { lin: 1"),
            ("-1", FRONT + "0 DER 1 a G 1 0 { asm } -1;"),
        )
    ],
    *[
        ([], f"VER 1.0 VAR 0 INT 0 OBJ {words}", [f"is `{meant}` meant?\n"], [])
        for meant, words in (
            ("min", "Minimize:"),
            ("max", "MAX"),
            ("infeas", "min 0 CON 0 0 RTP infeasible"),
            ("range", "min 0 CON 0 0 RTP optimal"),
            *(
                (meant, f"min 0 CON 0 0 RTP infeas SOL 0 DER 1 d G 1 0 {{ {word}")
                for meant, word in (
                    ("asm", "assumption"),
                    ("lin", "sum"),
                    ("rnd", "Round"),
                    ("uns", "split"),
                    ("sol", "cutoff"),
                    ("sol", "OBJ"),
                )
            ),
        )
    ],
    # the assumption of a case is another one on the same row
    (
        [],
        "VER 1.0 VAR 1 x INT 1 0 OBJ min 0 CON 2 0 lo G 5/2 1 0 2 up L 3 1 0 2 RTP infeas SOL 0 DER 6 a L 1 1 0 1 { asm } -1 "
        "b G 2 1 0 1 { asm } -1 c L 0 1 0 1 { asm } -1 d G 1/2 0 { lin 2 0 1 2 -2 } -1 e G 1 0 { lin 2 3 2 1 -1 } -1 "
        "g G 1 0 { uns 5 4 6 3 } -1",
        ["here it is <= 0 and >= 2", "with `uns 5 2 6 3` the derivation follows"],
        [],
    ),
    ([], FRONT + "0 DER 1 a G 1 0 { gomory 1", ["write `uns i1 l1 i2 l2` to join two"], []),
    *[
        ([], FRONT + f"0 DER 1 a G 1 0 {words}", ["is the reason missing between the braces?"], [])
        for words in ("{} -1", "{ } -1", "{}")
    ],
    (
        [],
        "VER 1.0 VAR 1 x INT 0 OBJ min 2 0 1 0 1",
        ["a variable may be in a vector once: are its coefficients to be added up?"],
        ["VALUE"],
    ),
    (
        [],
        FRONT + "0 DER 1 a G 1 0 { lin 1 1/2 0 }",
        ["an entry is two tokens, INDEX MULTIPLIER, the index first"],
        [],
    ),
    # a pair in one token
    *[
        ([], text, ["an index is digits alone, and a pair is two tokens"], [])
        for text in (
            "VER 1.0 VAR 1 x INT 0 OBJ min 1 (0,1)",
            "VER 1.0 VAR 1 x INT 0 OBJ min 1 0:1",
            FRONT + "1 s 1 x=1 DER 0",
        )
    ],
    (
        [],
        FRONT + "0 DER 1 a G 1 0 { lin 1 0:1 }",
        ["an entry is two tokens, INDEX MULTIPLIER, with white space alone between them"],
        [],
    ),
    # after `range` there are two bounds
    *[
        (
            [],
            f"VER 1.0 VAR 0 INT 0 OBJ min 0 CON 0 0 RTP range {words} SOL 0",
            ["two bounds come after `range` and nothing else"],
            ["count", "two tokens"],
        )
        for words in ("= 20", "lower 20", "20..20", "20-20", "(1)(2)")
    ],
    # what is wanted is an upper bound
    (
        [],
        "VER 1.0 VAR 1 x INT 0 OBJ max 1 0 1 CON 0 0 RTP range -inf 5 SOL 0 DER 0",
        ["says x <= 5 or stronger"],
        [],
    ),
    # a listed solution is feasible
    (
        [],
        "VER 1.0 VAR 1 x INT 0 OBJ min 0 CON 0 0 RTP infeas SOL 1 s 0 DER 0",
        ["so `infeas` is false"],
        [],
    ),
    # the row of a broken constraint is empty
    (
        [],
        "VER 1.0 VAR 1 x INT 0 OBJ min 0 CON 1 0 c G 1 0 RTP infeas SOL 1 s 0 DER 0",
        ["the row is empty; the left"],
        ["at the solution"],
    ),
    # what is no decimal
    *[
        ([], f"VER 1.0 VAR 1 x INT 0 OBJ min 1 0 {word}", ["a number is digits"], ["decimals"])
        for word in (".", "-.", "1+.5", "--3.5", "0-3.5")
    ],
    ([], "VER 1.0 VAR 1 x INT 0 OBJ min 1 0 -3.5", ["write -7/2"], []),
    # bounds of a claim
    (
        [],
        "VER 1.0 VAR 0 INT 0 OBJ min 0 CON 0 0 RTP range 0 +inf SOL 0 DER 0",
        ["for no bound write `-inf` first and `inf` second"],
        ["takes two bounds"],
    ),
    (
        [],
        "VER 1.0 VAR 0 INT 0 OBJ min 0 CON 0 0 RTP range 0 1e5 SOL 0 DER 0",
        ["exponents are not in the format"],
        ["two bounds"],
    ),
    # a change is offered if the rule accepts it: not of a constraint that was dropped, nor past the limit
    (
        [],
        "VER 1.0 VAR 1 x INT 0 OBJ min 1 0 1 CON 1 0 a G 1 1 0 1 RTP range 2 inf SOL 0 DER 2 b G 2 1 0 2 { lin 1 0 2 } 1 "
        "d G 2 1 0 2 { lin 1 1 0 } -1",
        ["with one more entry, 2 x [0] a, the derivation follows"],
        ["in place of 0 at [1]"],
    ),
    (
        [],
        "VER 1.0 VAR 2 x y INT 0 OBJ min 1 0 1 CON 3 0 a G 0 2 0 1 1 1 b G 0 1 0 1 c L 0 2 0 1 1 1 RTP range 2 inf SOL 0 "
        f"DER 1 d G 0 2 0 15 1 10 {{ lin 3 0 {2 ** 127 - 2} 1 1 2 -{2 ** 127 - 12} }} -1",
        ["computed 11, stated 15"],
        ["follows\n  ="],
    ),
    # it is offered wherever one follows: of a rounded sum, and of one that is absurd
    *[
        (
            words,
            "VER 1.0 VAR 1 x INT 1 0 OBJ min 0 CON 1 0 a G 1/2 1 0 1 RTP range -inf inf SOL 0 DER 1 d G 1 1 0 1 { rnd 1 0 2 } -1",
            ["with the multiplier 1 in place of 2 at [0] a the derivation follows"],
            [],
        )
        for words in ([], ["--profile", "2"])
    ],
    (
        [],
        "VER 1.0 VAR 1 x INT 0 OBJ min 0 CON 2 0 a G 1 1 0 1 b L 0 1 0 6/7 RTP infeas SOL 0 DER 1 d G 1 0 { lin 2 0 1 1 -1 } -1",
        ["with the multiplier -7/6 in place of -1 at [1] b the derivation follows"],
        [],
    ),
    # what comes near a claim has its row, whatever the sense: the other sense, and equations
    (
        [],
        "VER 1.0 VAR 1 x INT 0 OBJ min 1 0 1 CON 1 0 b E 3 1 0 1 RTP range 5 inf SOL 0 DER 0",
        ["[0] b  objective = 3  (line 1), too weak by 2, rests on no assumption"],
        ["no constraint has"],
    ),
    (
        [],
        "VER 1.0 VAR 1 x INT 0 OBJ min 1 0 1 CON 2 0 a G 2 1 0 1 b E 3 1 0 1 RTP range 5 inf SOL 0 DER 0",
        ["nearest:\n    [1] b", "does RTP claim more than [1] proves"],
        ["nothing stronger"],
    ),
    (
        [],
        "VER 1.0 VAR 1 x INT 0 OBJ min 1 0 1 CON 1 0 b L 3 1 0 1 RTP range 3 inf SOL 0 DER 0",
        [
            "[0] b  objective <= 3  (line 1), the other way round",
            "[0] is the other way round: is `OBJ max` meant?",
        ],
        ["too weak"],
    ),
    (
        ["--profile", "2"],
        "VER 1.0 VAR 1 x INT 1 0 OBJ min 1 0 1 CON 2 0 a G 1/2 1 0 1 b G 1 1 0 1 RTP range 2 inf SOL 0 DER 0",
        [
            "[0] a  objective >= 1/2  (line 1), too weak by 1 when it is rounded",
            "[1] b  objective >= 1  (line 1), too weak by 1, rests",
        ],
        ["nothing stronger"],
    ),
    (
        [],
        "VER 1.0 VAR 1 x INT 0 OBJ min 1 0 1 CON 0 0 RTP range 3 inf SOL 0 DER 1 d G 3 1 0 1 { asm } -1",
        ["[0] is an assumption itself: is its reason left out?"],
        ["joined"],
    ),
    # a join has no multipliers
    (
        [],
        "VER 1.0 VAR 1 x INT 1 0 OBJ min 1 0 1 CON 1 0 a L -1 1 0 -1 RTP range 1 inf SOL 0 DER 4 d L 0 1 0 1 { asm } -1 "
        "u G 1 1 0 1 { asm } -1 l L -1 1 0 -1 { lin 1 0 1 } -1 j G 1 1 0 1 { uns 3 1 3 2 } -1",
        ["[3] l  (line 1) proves what is stated if it is multiplied by -1"],
        ["multiplier"],
    ),
    # which section is here, and what a name and a number are
    (
        [],
        "VER 1.0 VAR 1 x INT 1 0 INT 0",
        ["the section `INT` was read before: is it here twice?"],
        ["missing"],
    ),
    ([], "VER 1.0 VER 1.0", ["the section `VER` was read before"], ["missing"]),
    ([], "VER 1.0 VAR 1 x INT 1 0 con", ["is `CON` meant?"], ["missing"]),
    (
        [],
        "VER 1.0 VAR 1 x INT 0 OBJ min 0 CON 1 0 1st row L 1",
        ["is a space in the name"],
        ["a number was read"],
    ),
    (
        [],
        "VER 1.0 VAR 1 x INT 0 OBJ min 1 0 1 CON 1 0 a G 2 1 0 1 RTP range 2 inf SOL 1 2nd 0 DER 0",
        ["is its count right?"],
        ["a number was read"],
    ),
    (
        [],
        "VER 1.0 VAR 2 x y INT 2 0 CON 1 0",
        ["`CON` is the keyword of a section"],
        ["next section"],
    ),
    (
        [],
        "VER 1.0 VAR 1 x INT 0 OBJ min 0 CON 0 0 RTP infeas SOL 1 s OBJ",
        ["`OBJ` stands for a vector in constraints and"],
        ["next section"],
    ),
    (
        [],
        "VER 1.0 VAR 1 x INT 0 OBJ min 0 CON 1 0 a L } OBJ",
        ["is a number missing in front of the brace?"],
        ["the reason has"],
    ),
    ([], "VER 1.0 VAR weak x", ["a count is digits alone"], ["version 1.1"]),
    *[
        ([], f"VER 1.0 VAR 1 x INT 0 OBJ min 1 0 {word}", ["a number is digits"], ["exponent"])
        for word in ("0x1e", "3eggs", "1e")
    ],
    *[
        ([], f"VER 1.0 VAR 1 x INT 0 OBJ min 1 0 {word}", ["exponents are not"], [])
        for word in ("1e5", "-2.5E+7")
    ],
    (
        [],
        "VER 1.0 VAR 1 x INT 0 OBJ min 0 CON 1 0 u L 1e20",
        ["an infinite bound is no constraint: leave it out"],
        [],
    ),
    (
        [],
        "VER 1.0 VAR 1 x INT 0 OBJ min 1 0 Fraction(11,",
        ["a fraction is digits, `/` and digits"],
        ["comma"],
    ),
    *[
        (
            [],
            f"VER 1.0 VAR 1 x INT 0 OBJ min 1 {word} 1",
            ["an index is digits alone"],
            ["that of the last"],
        )
        for word in ("+0", "-1", "3*0", "1=1")
    ],
    ([], "VER 1.0 VAR 1 x INT 0 OBJ min 1 7 1", ["that of the last variable is 0"], []),
    *[
        (
            [],
            f"VER 1.0 VAR 1 x INT 0 OBJ min 0 CON 1 0 cap {sign} 6",
            [f"write `{letter}` for"],
            ["space in the name"],
        )
        for sign, letter in (("<", "L"), (">", "G"), ("\xe2\x89\xa4", "L"), ("\xe2\x89\xa5", "G"))
    ],
    ([], FRONT + "0 DER 1 a G 1 0 { asm }13", ["put a space after the brace"], ["too small"]),
    ([], FRONT + "0 DER 1 a G 1 0 { asm } - 1", ["a number has no spaces: write -1"], []),
    ([], FRONT + "0 DER 1 a G 1 0 { Lin 1 0 1 } -1", ["reasons are in small letters"], []),
    ([], FRONT + "0 DER 1 a G 1 0 13", ["or is the reason missing?"], ["is too small"]),
    (
        [],
        FRONT + "0 DER 1 a G 1 0 -1 { asm }",
        ["is this the last reference? It comes after the reason, as in `{ asm } -1`"],
        ["too small"],
    ),
    # a comment after VER, before a constraint and at the end of one
    *[
        (
            [],
            f"VER 1.0 VAR 1 x INT 0 OBJ min 0 CON 2 0 {before} c G 1 1 0 1 {after} d G 1 1 0 1",
            ["does the name in front of this begin a comment? Comments may only be before `VER`"],
            ["a space in the name"],
        )
        for before, after in (("% the cover\n", ""), ("", "# set one\n"))
    ],
    # the letters of the format in place of what an enum or a page of HTML has
    *[
        (
            [],
            f"VER 1.0 VAR 1 x INT 0 OBJ min 0 CON 1 0 c {word} 1 1 0 1",
            [help_of_word],
            ["is `G` meant"],
        )
        for word, help_of_word in (
            ("Sense.G", "a sense is the letter `E`, `L` or `G`"),
            ("&gt;=", "write `G` for `>=`"),
            ("&LT;=", "write `L` for `<=`"),
        )
    ],
    # a mark for each variable in place of the indices, and no word OBJ
    (
        [],
        "VER 1.0 VAR 3 x y z INT 1 1 1 OBJ min 0",
        ["`INT` has 2 indices, and its count is 1: is 2 meant?"],
        [],
    ),
    ([], "VER 1.0 VAR 1 x INT 0 x OBJ", ["is the count after `INT` too small?\n"], []),
    *[
        ([], f"VER 1.0 VAR 1 x INT 0 {word} 0", ["is `OBJ` missing in front of this?"], ["count"])
        for word in ("min", "Maximize")
    ],
    # a list of pairs in the place of a vector, and bounds as an interval
    (
        [],
        "VER 1.0 VAR 1 x INT 0 OBJ min 0 CON 1 0 c G 1 [(0, 1), (4, 1)]",
        ["a vector is a count and then that many pairs INDEX COEFFICIENT"],
        ["is `0` meant"],
    ),
    (
        [],
        "VER 1.0 VAR 1 x INT 0 OBJ min 0 CON 0 0 RTP range [2, 3]",
        ["is `2` meant?"],
        [],
    ),
    # a case that is ruled out by no contradiction
    *[
        (
            [],
            "VER 1.0 VAR 1 x INT 1 0 OBJ min 1 0 1 CON 1 0 c G 1 1 0 1 RTP range 1 inf SOL 0 DER 4 "
            f"a L 0 1 0 1 {{ asm }} 4 b G 1 1 0 1 {{ asm }} 4 d G {side} 0 {{ lin 2 0 1 1 -1 }} 4 "
            "e G 1 OBJ { uns 3 1 2 2 } -1",
            ["is a case ruled out? Then it gives a contradiction, as 0 >= 1"],
            ["is another constraint meant as the case"],
        )
        for side in (0, -1)
    ],
    # an objective that was turned or scaled after its bound was proved
    *[
        (
            [],
            f"VER 1.0 VAR 2 x y INT 0 OBJ min 2 0 {first} 1 {second} CON 2 0 c G 1 1 0 1 d G 1 1 1 1 "
            "RTP range 21 inf SOL 0 DER 1 e G 21 OBJ { lin 2 0 2 1 3 } -1",
            [f"each stated coefficient is {ratio} times the computed one"],
            ["is what was computed meant"],
        )
        for first, second, ratio in ((8, 12, 4), (1, "3/2", "1/2"))
    ],
    ([], "VER 1", ["only version 1.0 is read"], ["weak"]),
    (
        [],
        " \n \t",
        ["nothing is in the text but white space\n", "no token is here"],
        ["ends after this"],
    ),
    # names and tokens as they are shown
    (
        [],
        "VER 1.0 VAR 1 x INT 0 OBJ min 0 CON 1 0 " + "n" * 100 + " Q",
        ["`" + "n" * 19 + ".." + "n" * 19 + "`"],
        ["n" * 20 + "`"],
    ),
    ([], "VER 1.0 VAR 1 x INT 0 OBJ min 0 CON 1 0 a\\x1b Q", ["`a\\\\x1b`"], []),
    ([], "VER 1.0 VAR 0 INT 0 OBJ m\xfcn", ["| " + " " * 24 + "^" * 6 + " this was found"], []),
]
# Helps of other texts, which aren't true of this one: the model has to say so.
UNTRUE = [
    *[
        (STALE, sentence)
        for sentence in (
            "in [9] f  (line 19) [7] rests on [6], and [8] on [5]: are l1 and l2 exchanged? "
            "`uns 7 6 8 5`",
            "[0] low  (line 7) proves the claim if it is multiplied by 2: "
            "add the derivation `NAME G 1 OBJ { lin 1 0 2 } -1`, and 1 to the count after DER",
            "the sum of [7] d  (line 17) is absurd, and it states 0 >= 1, which is always true: "
            "is `G 1 0` meant?",
        )
    ],
    *[
        (TWO_LASTS.format(1, 1), sentence)
        for sentence in (
            "[2] is named 2 times: is the last reference a count of that? It is the index of the "
            "last derivation that names the constraint; here none is above the index of its own "
            "line",
            "[2] is named once: is the last reference a count of that? It is the index of the "
            "last derivation that names the constraint",
            "derivation 4 is 2 below [2]: is the last reference counted from its own line? It is "
            "the index of the last derivation that names the constraint",
            "1 is the first derivation that names [2], and 3 the last one: write the last one",
        )
    ],
    (
        TWO_LASTS.format(3, 1),
        "no last reference in DER is above the index of its own line: each is the index of the "
        "last derivation that names it, or -1",
    ),
    *[
        (SET_COVER.replace("all G 7", "all G 9"), sentence)
        for sentence in (
            "a `uns` proves the weaker one of its cases: is 8 meant here?",
            "[12] leaf1  (line 24) proves what is stated if it is multiplied by 2: derive that by "
            "`{ lin 1 12 2 }`, and name it as the case",
        )
    ],
    *[
        (
            "VER 1.0 VAR 2 x s INT 1 0 OBJ min 0 CON 1 0 c G 1/2 2 0 1 1 1 RTP range -inf inf "
            "SOL 1 p 1 0 1 DER 1 d G 1 2 0 1 1 1 { rnd 1 0 1 } -1",
            "a sum is rounded if all coefficients are whole, and all its variables are integer "
            f"ones{end}",
        )
        for end in (
            ": is `lin` meant, which doesn't round?",
            "; multiples of bounds in the sum can make the coefficients whole",
            "; derive a cut over other variables by a split, with `asm`, `lin` and `uns`",
        )
    ],
    *[
        (FRONT + "1 s 1 0 0 DER 1 d G 1=\n0", sentence)
        for sentence in (
            "line 2 repeats line 1: was it written twice?",
            "line 1 looks like a conflict marker of a merge: were two versions of the file put into one?",
            "mail breaks a long line with `=` at its end, as in line 2: was the file sent as the text of a mail?",
            "mail writes `=3D` for `=`: was the file sent as the text of a mail?",
            "mail writes `=20` for a space: was the file sent as the text of a mail?",
            "is this line what another program printed, and no part of the certificate?",
            "is `1=` a tag of HTML? A certificate is plain text",
            "is `G 1=` a mixed number? Then write 1",
            "did a space or a line break get lost between `1` and `=`?",
            "is a part of the text lost between `1` and `=`?",
        )
    ],
    *[
        (TWO_LASTS.format(1, 4), sentence)
        for sentence in (
            "1 is not above 2: do last references count derivations from 0? Then add 2 to each: 3 here",
            "are digits exchanged? The last derivation that names it is 3, and 1 is written",
        )
    ],
    *[
        (
            "VER 1.0 VAR 2 x y INT 0 OBJ min 0 CON 4 2 a G 2 1 0 2 b G 3 1 1 3 c G 0 1 0 1 e G 0 1 1 1 RTP range -inf inf SOL 0 "
            "DER 1 d G 2 2 0 1 1 1 { lin 2 0 5 1 7 } -1",
            sentence,
        )
        for sentence in (
            # another sum, and other questions about the right one
            "with `lin 2 0 1/2 1 1/4` the derivation follows",
            "with `lin 2 0 1/2 1 1/3` the derivation follows: are fractions written upside down?",
            "with `lin 2 0 1/2 1 1/3` the derivation follows: do these multipliers have the other sign?",
            "with `lin 2 0 1/2 1 1/3` the derivation follows: do the multipliers of all equations have the other sign?",
            "with `lin 2 0 1/2 1 1/3` the derivation follows: are the multipliers rounded, or cut to whole numbers or fewer digits?",
            "with `lin 2 2 5 3 7` the derivation follows: are the first 2 constraints counted after the other 2?",
            "with `lin 2 1 5 0 7` the derivation follows: are [0] and [1] exchanged?",
            "with `lin 2 0 1/2 1 1/3` the derivation follows: is each of the 2 equations of the problem counted twice?",
            "with 2 more entries, -8 x [2] c, -20 x [3] e, the derivation follows: are bounds of variables left out? Variables are free",
            "with 4 in place of 2 in [0] a  (line 1) the derivation follows: is that meant?",
            "with <= in place of >= in [0] a  (line 1) the derivation follows: is that meant?",
            "the rows cancel, and what is left is no contradiction: is a right-hand side below wrong, or is this case not ruled out?",
        )
    ],
    *[
        (
            "VER 1.0 VAR 2 x y INT 2 0 1 OBJ min 0 CON 0 0 RTP infeas SOL 0 DER 4 a L 3 1 0 1 { asm } -1 c G 4 1 1 1 { asm } -1 "
            "b G 5 1 0 1 { asm } -1 u G 0 0 { uns 0 0 2 2 } -1",
            sentence,
        )
        for sentence in (
            "[1] is an assumption between them: is it a third case? A `uns` joins two, and another one those and the third",
            "with x <= 4 for x <= 3, which says the same, they are a split",
            "is >= 4 meant in place of >= 5? A negative number that is cut to a whole one is rounded up",
        )
    ],
    (
        FRONT + "1 s 1 0 0 DER 0",
        "the solution lists no value, so each variable is 0: is its count right?",
    ),
    (
        FRONT + "1 s 0 DER 0",
        "all values that the solution lists are 0, as is a variable that it doesn't list: change it, or leave it out",
    ),
    (FRONT + "1 s 1 0 0 DER 0", "its name is a number: is the name missing?"),
    (
        FRONT + "1 s 1 0 0 DER 0",
        "is a value rounded, as one of floating point is? Write exact fractions",
    ),
    (
        FRONT + "1 s 1 0 0 DER 0",
        "no solution meets this constraint: change it, or take it out",
    ),
    (
        "VER 1.0 VAR 1 x INT 0 OBJ min 0 CON 1 0 c G 1 0 RTP infeas SOL 1 s 1 0 1 DER 0",
        "change the solution, or leave it out; a variable that it doesn't list is 0",
    ),
    (
        "VER 1.0 VAR 1 a INT 0 OBJ max 10*a",
        "a vector is a count and then that many pairs INDEX COEFFICIENT; the right-hand side is before it",
    ),
    *[
        (
            "VER 1.0 VAR 1 a INT 0 OBJ max 0 CON 1 0 cap EQUAL 6",
            f"the name in front of this is {words}",
        )
        for words in (
            "a number: is the count of coefficients in front of that too small, or a right-hand side missing?",
            "`E`, `L` or `G`: is it the sense, and the name missing? NAME SENSE RIGHT-HAND-SIDE COUNT INDEX COEFFICIENT ..",
        )
    ],
    # what is only said of the first token
    *[
        (
            f"VER 1.0 VAR 1 x INT 0 OBJ min 0 CON 1 0 c {word}",
            words,
        )
        for word, words in (
            ("[G]]", "this looks like JSON, and not like a certificate"),
            ("<", "this looks like a page of HTML or XML, and not like a certificate"),
            ("#", "a comment begins with `%`"),
            (
                "min",
                "this looks like an LP file, which has the problem alone: a certificate has the claim and its proof, too",
            ),
            (
                "*",
                "this looks like an MPS file, which has the problem alone: a certificate has the claim and its proof, too",
            ),
        )
    ],
    # a text that is whole
    *[
        (FRONT + "0 DER 1 a G 2 1 0 1 { lin 1 0 1 } -1", f"is the file cut, or {words} too large?")
        for words in ("the count after `DER`", "a count")
    ],
    (
        FRONT + "0 DER 1 a G 2 1 0 1 { lin 1 0 1 } -1",
        "is the file cut, or is `DER` missing? Then write `DER 0` if nothing is derived",
    ),
    # a text that is cut, but refused before its end
    (
        FRONT + "1 s 0 DER 1 a G 1 0 { asm",
        "the reason should end here: `asm` and `sol` take nothing, `uns` takes i1 l1 i2 l2, `lin` and `rnd` COUNT INDEX MULTIPLIER ..: "
        "is its number of entries missing or too small?",
    ),
    # what is only said of a number
    ("VER 1.1 VAR", "decimals are not in the format: write a fraction, as 13/4"),
    ("VER 1.0 VAR 4294967296", "a count is digits alone: is it missing after the keyword?"),
    ("VER 1.0 VAR nan", "is there no value? Then leave the entry or the constraint out"),
    (
        f"VER 1.0 VAR 1 x INT {2**128}",
        "numerator and denominator may be 2^127 - 1 at most; docs/FORMAT.md says what can help",
    ),
    (
        "VER 1.0 VAR 1 x INT 1 (0,0)",
        "a comma is not in the format: write digits alone, or a fraction, as 13/4",
    ),
    (
        "VER 1.0 VAR 1 x INT 1 1/2",
        "a fraction is digits, `/` and digits, and its sign is in front, as -5/2",
    ),
    (
        FRONT + "0 DER 1 a G 1 0 { uns 4e0",
        "exponents are not in the format: write all digits, or a fraction, as 1/1000",
    ),
    (FRONT + "0 DER 1 a G 1 0 {{ asm", "put a space before the brace"),
    ("VER 1.0 - VAR", "a number has no spaces, as -11/9"),
    # of a sum, and of the numbers in its rows
    *[
        (
            FRONT + "0 DER 1 a G 2 1 0 1 { lin 1 0 3333/10000 } -1",
            sentence,
        )
        for sentence in (
            "the sum has the stated row: is 1 meant here, or is a right-hand side below wrong?",
            "with 1/3 for 3333/10000, and such a fraction for each rounded multiplier, the sum has the stated row: write exact fractions",
            "with -1 in place of 1 at x in [0] c  (line 1) the rows are the same: is that meant, or 3333/10000 in the stated row?",
            "with -1 in place of 1 at x in the stated row the rows are the same: is that meant?",
            "3333/10000 is near 1/3, and its denominator is a power of 2, as in floating point: is 1/3 meant?",
            "[0] is `c`, and [1] is `a`: are the lines in another order than they were written, as by name?",
        )
    ],
    # of a text that is cut, and of a token that is no fraction
    (
        FRONT + "0 DER 3 a G 2 1 0 1 { lin 1 0 1 } -1",
        "the text ends after 2 of 3 derivations: is the file cut, or the count after `DER` too large?",
    ),
    (
        FRONT + "0 DER 1 a G 1 / 2",
        "is `1/3` meant? A number is one token, without white space or a line break in it",
    ),
    # of a solution that breaks a constraint
    *[
        (
            "VER 1.0 VAR 1 x INT 0 OBJ min 0 CON 1 0 c E 1 1 0 1 RTP infeas SOL 1 s 1 0 2 DER 0",
            sentence,
        )
        for sentence in (
            "is `L` meant in place of `E`? Then the solution meets this constraint; else change the solution, or leave it out",
            "is -1 meant in place of 1 at x? Then both sides are the same; else change the solution, or leave it out",
        )
    ],
    # of a derivation, and of the claim
    (
        FRONT + "0 DER 1 a G 2 1 0 1 { lin 1 0 1 } -1",
        "each coefficient has the other sign: does every multiplier have the wrong sign?",
    ),
    (
        FRONT + "0 DER 1 a G 2 1 0 1 { lin 1 0 1 } -1",
        "is what was computed meant? `sol` gives the best listed value, and nothing better",
    ),
    (
        FRONT + "0 DER 1 a G 1 1 0 1 { rnd 1 0 1/2 } -1",
        "INT lists no variable: is it left out?",
    ),
    (
        FRONT + "0 DER 0",
        "the text lists a solution that is feasible, so `infeas` is false: claim `range` and two bounds",
    ),
    (
        "VER 1.0 VAR 1 x INT 0 OBJ min 1 0 1 CON 0 0 RTP range -inf 1 SOL 1 s 1 0 2 DER 0",
        "list a solution after SOL, or claim no primal bound in RTP (`inf` for min, `-inf` for max)",
    ),
]
# The last reference has to be 9000, which a part of the text doesn't show.
LATE = (
    "VER 1.0 VAR 0 INT 0 OBJ min 0 CON 1 0 c G 0 0 RTP infeas SOL 0 DER 9001\nd G 0 0 { lin 0 } 1\n"
    + "e G 0 0 { lin 1 1 1 } -1\n"
    + "f G 0 0 { lin 1 0 1 } -1\n" * 8997
    + "g G 0 0 { lin 1 1 1 } -1\n"
    + "h G 0 0 { lin 1 0 1 } -1\n"
)
# More texts, of which some are large in one respect, so that a page could be cut off there: what is in the page of each,
# and the least length of that.
MORE = [
    # a claim behind a comment of 9 MiB and 30,000 derivations
    (
        "%"
        + "c" * (9 << 20)
        + "\nVER 1.0 VAR 1 x INT 0 OBJ min 1 0 1 CON 1 0 a G 7 OBJ RTP range 9 inf SOL 0 DER 30000\n"
        + "".join(
            f"d{index} G {1 + index % 6} OBJ {{ lin 1 0 1 }} -1\n" for index in range(30_000)
        ),
        "[0] a  objective >= 7  (line 2), too weak by 2, rests on no assumption",
        0,
    ),
    # the thirteenth solution
    (
        "VER 1.0 VAR 1 x INT 0 OBJ min 1 0 1 CON 1 0 a G 1 1 0 1 RTP range -inf 1 SOL 13\n"
        + "s 1 0 1\n" * 12
        + "s 0 DER 0",
        "constraint 0 `a`: x >= 1  (line 1)",
        0,
    ),
    # a page of more than 4,096 bytes
    (
        "VER 1.0 VAR 20 "
        + " ".join(f"x{index:030}" for index in range(20))
        + " INT 0 OBJ min 20 "
        + " ".join(f"{index} 1" for index in range(20))
        + " CON 30 0 "
        + " ".join(f"c{index:030} G 1 OBJ" for index in range(30))
        + " RTP infeas SOL 0 DER 1 d G 1 0 { lin 30 "
        + " ".join(f"{index} 1" for index in range(30))
        + " } -1",
        "no change of one entry that was tried makes it follow",
        4_097,
    ),
    *[
        (
            f"VER 1.0 VAR 1 x INT 0 OBJ min 0 CON 1 0 c {sense} 1 1 0 1",
            f"write `{letter}` for `{sense}`",
            0,
        )
        for letter, sense in (("G", ">="), ("L", "<="), ("E", "="))
    ],
]
# One more text for each cause that the others don't have.
LARGE = str(2**127 - 1)
CAUSES = [
    f"VER 1.0 VAR 1 x INT 0 OBJ min 1 0 {2 ** 127}",
    "VER 1.0 VAR 1 x INT 0 OBJ min 1 0 1/0",
    "VER 1.0 VAR 4294967296",
    "VER 1.0 VAR 0 INT 0 OBJ min 0 CON 0 0 RTP maybe",
    FRONT + "0 DER 1 a G 1 0 { lin 1 c 1 } -1",
    "VER " + "v" * 65536,
    FRONT + "1 half 1 0 1/2 DER 0",
    FRONT + f"1 half 1 0 {LARGE}/2 DER 0",
    f"VER 1.0 VAR 1 x INT 0 OBJ min 0 CON 1 0 c G 1 1 0 {LARGE} RTP infeas SOL 1 large 1 0 2 DER 0",
    f"VER 1.0 VAR 1 x INT 0 OBJ min 1 0 {LARGE} CON 0 0 RTP infeas SOL 1 large 1 0 2 DER 0",
    FRONT + f"0 DER 1 a G 1 0 {{ lin 2 0 1 0 {LARGE} }} -1",
    FRONT.replace("c G 1 1 0 1", "c G 1 1 0 2") + f"0 DER 1 a G 1 0 {{ lin 1 0 {LARGE} }} -1",
    FRONT + "0 DER 1 a L 0 1 0 1 { sol } -1",
    FRONT + "0 DER 1 a G 1 1 0 1 { lin 1 5 1 } -1",
    FRONT + "0 DER 2 a L 0 1 0 1 { asm } -1 b G 0 0 { uns 0 0 1 1 } -1",
    "VER 1.0 VAR 0 INT 0 OBJ min 0 CON 0 0 RTP range -inf -1 SOL 0 DER 0",
    "VER 1.0 VAR 2 x y INT 0 OBJ min 0 CON 1 0 c G 1 1 0 1 RTP infeas SOL 0 DER 1 a G 1 2 0 1 1 1 { lin 1 0 1 } -1",
    # of two multipliers that mend a coefficient the second one makes the right-hand side too
    "VER 1.0 VAR 1 x INT 0 OBJ min 0 CON 2 0 a G 0 1 0 1 b G 1 1 0 1 RTP infeas SOL 0 DER 1 d G 2 1 0 3 { lin 2 0 1 1 1 } -1",
    f'VER 1.0 VAR 2 {"n" * 50}a {"n" * 50}b INT 0 OBJ min 0 CON 1 0 c E 1 2 0 1 1 1 RTP infeas SOL 0 DER 1 d E {LARGE} 2 0 1 1 1 {{ lin 1 0 1 }} -1',
    # a long row that is broken, and a best solution that is behind those that are shown
    "VER 1.0 VAR 11 a b c d e f g h i j k INT 0 OBJ min 0 CON 1 0 c G 1 11 "
    + " ".join(f"{index} 1" for index in range(11))
    + " RTP infeas SOL 1 s 0 DER 0",
    "VER 1.0 VAR 1 x INT 0 OBJ min 1 0 1 CON 0 0 RTP range -inf 1 SOL 11 "
    + "s 1 0 2 " * 10
    + "s 1 0 1 DER 0",
]
# Texts of the sources that no page has: of faults that there aren't, of a verdict on another text, of a read that fails
# (hostile.py tries it), and of pages that are longer than those of the file.
UNREACHED = {
    "the end of the text: the last derivation is before this",
    "see the table of causes in docs/FORMAT.md",
    "\nthe verdict isn't one of this text, so it isn't explained\n",
    "\na read failed after what is refused, so it isn't explained\n",
    ".. the rest is left out\n",
}
# What part of the damages to one entry has to be named, by what is damaged.
LEAST = {
    "multiplier": 0.9,
    "sign": 0.9,
    "index": 0.9,
    "entry": 0.7,
    "order": 0.8,
    "case": 0.8,
    "word": 0.9,
}
# In how many pages at least one part is changed, and in one more for each damaged text.
LEAST_CHANGED = 1_000
# The same of slips that a whole file has.
LEAST_OF_SLIPS = {
    "indices from 1": 0.8,
    "indices without the first": 0.8,
    "derivations from one more": 0.8,
    "a line left out": 0.8,
    "a line too many": 0.6,
    "indices from 0 in DER": 0.8,
    "a scaled row": 0.8,
    "every sign": 0.8,
    "l and i exchanged": 0.8,
    "two lines left out": 0.6,
    "bounds counted first": 0.6,
    "multipliers cut to whole numbers": 0.6,
    "multipliers of one digit": 0.5,
    "fractions upside down": 0.6,
}
CHECKS = Checks("long")
check = CHECKS.check
pages = {}


def explained(words, data=b""):
    """What the program prints, and its exit status."""
    return run([PROGRAM, "explain", *words], data)[::2]


def page_of(path, name):
    """The long part for a file; it is compared with the short one and with that from standard input."""
    data = path.read_bytes()
    short, status = explained([path])
    long, long_status = explained(["--long", path])
    piped, piped_status = explained(["--long"], data)
    check(
        long.startswith(short) and status == long_status,
        f"{name}: the first lines and the status of explain",
    )
    check(
        piped.startswith(short) and status == piped_status, f"{name}: the same from standard input"
    )
    if len(data) <= 1000:
        slow, _, slow_status = fed(
            [PROGRAM, "explain", "--long"], [data[at : at + 1] for at in range(len(data))]
        )
        check((slow, slow_status) == (piped, piped_status), f"{name}: the same from a byte a read")
    summed = explained(["--sum", "--long", path])
    digest = f"sha256 {hashlib.sha256(data).hexdigest()}\n".encode()
    check(summed == (long + digest, long_status), f"{name}: the digest behind the page")
    is_true(long, data, name, path)
    page = long[len(short) :]
    check(all(byte == 10 or 32 <= byte <= 126 for byte in page), f"{name}: every byte is shown")
    check(len(page) <= MOST_BYTES, f"{name}: the length")
    named = page.decode("ascii", "replace")
    check(
        piped[len(short) :].decode("ascii", "replace")
        == named.replace(str(path), "standard input"),
        f"{name}: the same text from standard input",
    )
    return named


def is_true(page, text, name, path="standard input", profile=1):
    """Whether all that a page says is true of its text, and nothing is missing. Gives the sums that it offers."""
    page = page.decode("utf-8", "surrogateescape")
    facts = page_facts.Facts(text, profile)
    faults, offers = page_model.read(page, facts, str(path))
    check(not faults, f"{name}, profile {profile}: {faults}")
    if len(page) < MOST_OF_CHANGED:
        chance = random.Random(f"{GIVEN.seed} {profile} {page}")
        front = page.find("\n\n") + 1
        other = page[:front] + page_changes.changed(page[front:], facts, chance)
        if other != page:
            CHANGED.append(name)
            known = page_model.read(other, facts, str(path))[0]
            check(
                known,
                f"{name}, profile {profile}: this page is not true, and no fault was seen: {other}",
            )
    return offers


def untrue_helps():
    """The model finds that a help of another text isn't true of this one."""
    for text, sentence in UNTRUE + UNTRUE_SLIPS:
        page = page_model.Page(page_facts.Facts(text.encode(), 1), "standard input")
        fault = page_model.line_faults(page, f"  = help: {sentence}")
        check(
            fault and fault != page_model.NO_FORM,
            f"{text!r}: {sentence!r} is not refused: {fault}",
        )


def damaged_texts():
    """What is said of examples that are damaged is true."""
    known = examples()
    for number in range(GIVEN.texts):
        chance = random.Random(f"{GIVEN.seed} {number}")
        path, text = chance.choice(known)
        damage = chance.choice([damaged, nearly, nearly, nearly, changed, mistaken, mistaken])
        text = damage(text, chance)
        for profile in (1, 2):
            page = explained(["--long", "--profile", profile], text)[0]
            is_true(
                page,
                text,
                f"text {number} of seed {GIVEN.seed}, {path.name} as {text}",
                profile=profile,
            )


def large_texts():
    """What is said of texts that are large in one respect is true."""
    for name, text in page_texts.texts():
        for profile in (1, 2) if len(text) < 100_000 else (1,):
            is_true(
                explained(["--long", "--profile", profile], text)[0], text, name, profile=profile
            )


def cut_pages(path):
    """A page is whole up to 65,512 bytes. Of a longer one the lines are there that fit, and a line behind them that says so."""
    text = page_texts.with_long_page()
    path.write_bytes(text)
    front = len(explained([path])[0])
    page, given = explained(["--long", path])[0][front:], str(path).encode()
    room = (MOST_BYTES - len(CUT) - len(page.replace(given, b""))) // page.count(given)
    for size in (room - 1, room, room + 1, room + 500):
        named = page_texts.path_shown_in(path.parent, size)
        named.write_bytes(text)
        whole = page.replace(given, page_facts.shown(bytes(named)).encode())
        lines = whole[: MOST_BYTES - len(CUT)].rpartition(b"\n")[0] + b"\n"
        wanted = whole if len(whole) <= MOST_BYTES - len(CUT) else lines + CUT
        check(explained(["--long", named])[0][front:] == wanted, f"a page of {len(whole)} bytes")


def opened_once(path):
    """A file is opened once, whatever is explained."""
    _, calls = traced([PROGRAM, "explain", "--long", path], "-e", "trace=open,openat")
    count = sum(str(path) in line for line in calls)
    check(count == 1, f"{path}: opened {count} times")


def of_a_pipe(pipe, path):
    """A named pipe is read once, as standard input is."""
    data = path.read_bytes()
    os.mkfifo(pipe)
    threading.Thread(target=pipe.write_bytes, args=(data,), daemon=True).start()
    page, status = explained(["--long"], data)
    check(
        explained(["--long", pipe]) == (page.replace(b"standard input", bytes(pipe)), status),
        "a named pipe",
    )


def keep(name, page, path):
    """Keeps a page under a name, to compare it with the one in the file."""
    pages[name] = page.replace(str(path), "FILE")


def compare():
    """Compares the first page of each kind with that of the file, or writes them there."""
    kept = page_texts.first_of_each_kind(pages)
    if GIVEN.write:
        text = "".join(f"==== {name}\n{page}" for name, page in kept.items())
        PAGES.write_text(text, encoding="ascii")
    known = dict(
        part.split("\n", 1) for part in PAGES.read_text(encoding="ascii").split("==== ")[1:]
    )
    for name, page in kept.items():
        check(known.get(name) == page, f"{name}: another page than in {PAGES.name}: {page}")
    check(
        list(known) == list(kept),
        f"{PAGES.name} has the names {set(known) ^ set(kept)} too many or too few",
    )


def texts_of_pages():
    """The texts in the sources of the pages, each with a pattern: a value in it is anything."""
    for file in sorted((TOP / "crates").glob("vipr_[ep][xa][pg]*/src/*.rt")):
        code = re.sub(
            r"^\s*(//|ghost use|use ).*$",
            "",
            file.read_text(encoding="utf-8").replace("b'\"'", ""),
            flags=re.M,
        )
        for is_bytes, literal in re.findall(r'(b?)"((?:[^"\\]|\\.)*)"', code, re.S):
            if is_bytes:
                continue
            text = (
                re.sub(r"\\\n\s*", "", literal)
                .replace("\\n", "\n")
                .replace('\\"', '"')
                .replace("\\\\", "\\")
            )
            parts = re.split(r"\{[\w:]*\}", text.replace("{{", "{").replace("}}", "}"))
            yield f"{file.parent.parent.name}/{file.name}", text, ".*".join(map(re.escape, parts))


def count_unreached():
    """Each text of the sources is in a page, and so is each help that the model knows."""
    whole = "\n".join(pages.values())
    for file, text, pattern in texts_of_pages():
        check(
            text in UNREACHED or re.search(pattern, whole),
            f"no page has this text of {file}: {text!r}",
        )
    said = {line.removeprefix("  = help: ") for line in whole.split("\n")}
    for sentence in page_model.HINTS:
        check(sentence in said, f"no page has this help, which the model takes: {sentence!r}")


def text_of(lines, at, words):
    """The text of these lines with other words in this one."""
    return "\n".join([*lines[:at], " ".join(words), *lines[at + 1 :]]).encode()


def changed_reasons(words, first, count):
    """Each reason with one part damaged: the order of a join, an index of it, the word of a sum, or something of an entry."""
    if words[first - 2] == "uns":
        yield "order", [
            *words[: first - 1],
            words[first],
            words[first - 1],
            words[first + 2],
            words[first + 1],
            *words[first + 3 :],
        ]
        for place in range(first - 1, first + 3):
            yield "case", [
                *words[:place],
                str((int(words[place]) + 1) % count),
                *words[place + 1 :],
            ]
        return
    yield "word", [
        *words[: first - 2],
        "rnd" if words[first - 2] == "lin" else "lin",
        *words[first - 1 :],
    ]
    for place in range(first, len(words) - 2, 2):
        index, multiplier = words[place : place + 2]
        front, behind = words[:place], words[place + 2 :]
        turned = multiplier[1:] if multiplier[0] == "-" else f"-{multiplier}"
        for other in {"5", "-1/3"} - {multiplier}:
            yield "multiplier", [*front, index, other, *behind]
        yield "sign", [*front, index, turned, *behind]
        for other in {(int(index) + step) % count for step in (1, 2)} - {int(index)}:
            yield "index", [*front, str(other), multiplier, *behind]
        yield "entry", [
            *front[: first - 1],
            str(int(words[first - 1]) - 1),
            *front[first:],
            *behind,
        ]


def changes_suffice():
    """One part of each reason of the problems is damaged. Most of the changes that are offered are the original."""
    refused, named = collections.Counter(), collections.Counter()
    for path in sorted(PROBLEMS.glob("*.vipr")):
        lines = run([PROGRAM, "show", path]).stdout.decode().splitlines()
        given = int(next(line for line in lines if line.startswith("CON ")).split()[1])
        passed = 0
        for at, words in enumerate(map(str.split, lines)):
            if "{" not in words:
                continue
            first = words.index("{") + 3
            for kind, other in (
                changed_reasons(words, first, given + passed)
                if words[first - 2] in ("lin", "rnd", "uns")
                else ()
            ):
                page = explained(["--long"], text_of(lines, at, other))[0]
                found = is_true(
                    page, text_of(lines, at, other), f"{path.name}, a {kind} of line {at}"
                )
                place = page.decode().partition("\n")[0].partition(" at ")[2]
                # (`lin` is no more than asked for if INT lacks a variable)
                if (
                    re.search(rb"cause (33|34|36|37|38)\n", page)
                    and place == f"DER {given + passed}"
                    and not (kind == "word" and b"is not an integer variable" in page)
                ):
                    refused[kind] += 1
                    named[kind] += any(sorted(offer) == parts_of(words, first) for offer in found)
            passed += 1
    for kind, least in LEAST.items():
        check(
            refused[kind] and named[kind] >= least * refused[kind],
            f"{kind}: {named[kind]} of {refused[kind]} are named",
        )


def slipped(words, first, given, bounds, place):
    """The reason of a derivation with each slip of a whole file: the indices of its constraints, or its multipliers, are changed."""
    is_sum, end = words[first - 2] != "uns", len(words) - 2
    places = range(first, end, 2) if is_sum else range(first - 1, end)

    def changed_by(change, start):
        other = list(words)
        for at in places:
            other[at + start] = str(change(Fraction(words[at + start])))
        return other

    indices = {
        "indices from 1": lambda index: index + 1,
        "indices without the first": lambda index: index - 1,
        "derivations from one more": lambda index: index + (index >= given),
        "a line left out": lambda index: index + (index >= place),
        "a line too many": lambda index: index - (index > place),
        "two lines left out": lambda index: index + 2 * (index >= place),
        "bounds counted first": lambda index: (index + bounds) % given if index < given else index,
    }
    for kind, change in indices.items():
        yield kind, changed_by(change, 0)
    if all(int(words[at]) >= given for at in places):
        yield "indices from 0 in DER", changed_by(lambda index: index - given, 0)
    if is_sum:
        yield "a scaled row", changed_by(lambda multiplier: 5 * multiplier, 1)
        yield "every sign", changed_by(lambda multiplier: -multiplier, 1)
        yield "multipliers cut to whole numbers", changed_by(int, 1)
        yield "multipliers of one digit", changed_by(lambda one: Fraction(int(10 * one), 10), 1)
        yield "fractions upside down", changed_by(lambda one: 1 / one if one else one, 1)
    else:
        i1, l1, i2, l2 = words[first - 1 : first + 3]
        yield "l and i exchanged", [*words[: first - 1], l1, i1, l2, i2, *words[first + 3 :]]


def slips_are_named():
    """All indices, or all multipliers, of the problems are changed in one way. Most of the changes that are offered are the original."""
    refused, named = collections.Counter(), collections.Counter()
    for path in sorted(PROBLEMS.glob("*.vipr")):
        lines = [line.split() for line in run([PROGRAM, "show", path]).stdout.decode().splitlines()]
        given, bounds = map(int, next(words for words in lines if words[0] == "CON")[1:3])
        reasons = [at for at, words in enumerate(lines) if "{" in words]
        kinds = collections.defaultdict(dict)
        for at in reasons:
            words = lines[at]
            first = words.index("{") + 3
            if words[first - 2] in ("lin", "rnd", "uns"):
                for kind, other in slipped(words, first, given, bounds, given + len(reasons) // 2):
                    kinds[kind][at] = other
        for kind, others in kinds.items():
            text = "\n".join(
                " ".join(others.get(at, line)) for at, line in enumerate(lines)
            ).encode()
            page = explained(["--long"], text)[0]
            found = is_true(page, text, f"{path.name}, {kind}")
            place = re.match(r"refused (31|32|33|34|36|37|38) at DER (\d+)\n", page.decode())
            if place:
                words = lines[reasons[int(place[2]) - given]]
                refused[kind] += 1
                named[kind] += any(
                    sorted(offer) == parts_of(words, words.index("{") + 3) for offer in found
                )
    for kind, least in LEAST_OF_SLIPS.items():
        check(
            refused[kind] and named[kind] >= least * refused[kind],
            f"{kind}: {named[kind]} of {refused[kind]} are named",
        )


def parts_of(words, first):
    """The indices that a derivation joins, or the entries of its sum, in any order."""
    if words[first - 2] == "uns":
        return sorted(map(int, words[first - 1 : first + 3]))
    return sorted(
        (int(index), Fraction(multiplier))
        for index, multiplier in zip(words[first:-2:2], words[first + 1 : -2 : 2])
    )


def unread(path, reason):
    """A file that can't be opened: `fault read` is all that is printed without --long, which names it and the reason."""
    short, long = (run([PROGRAM, "explain", *words, path]) for words in ([], ["--long"]))
    check(short == (b"", b"fault read\n", 3), f"{path!r}: {short}")
    named = re.sub(r"[^ -~]", lambda found: f"\\x{ord(found[0]):02x}", str(path))
    line = f"{named}: {os.strerror(reason)} (os error {reason})\n"
    check(
        (long.stdout, long.stderr.decode(), long.returncode) == (b"", line + "fault read\n", 3),
        f"{path!r} with --long, not {line!r}: {long}",
    )


def main():
    is_traced = may_trace()
    with tempfile.TemporaryDirectory() as folder:
        path = Path(folder) / "copy.vipr"
        path.write_bytes(b"")
        path.chmod(0)
        if not os.access(path, os.R_OK):
            unread(path, errno.EACCES)
        path.unlink()
        for name, reason in *(
            (name, errno.ENOENT) for name in ("missing.vipr", "a \x1b[31m name\n", "")
        ), ("n" * 300, errno.ENAMETOOLONG):
            unread(name and f"{folder}/{name}", reason)
        unread(folder, errno.EISDIR)
        for problem, old, new, place, change in MISTAKES:
            name = f"{problem}, {old!r} -> {new!r}"
            text = (PROBLEMS / f"{problem}.vipr").read_text()
            check(old in text, f"{name}: the text to be replaced")
            path.write_text(text.replace(old, new, 1))
            page = page_of(path, name)
            keep(name, page, path)
            check(place in page, f"{name}: the place {place!r}")
            check(change in page, f"{name}: the change {change!r}")
        for problem, old, new, change in HINTS + SLIPS:
            name = f"{problem}, {old!r} -> {new!r}"
            text = (PROBLEMS / f"{problem}.vipr").read_text()
            check(old in text, f"{name}: the text to be replaced")
            path.write_text(text.replace(old, new, 1))
            page = page_of(path, name)
            keep(ascii(name), page, path)
            check(change in page, f"{name}: {change!r} in {page}")
        for problem in sorted({row[0] for row in MISTAKES}):
            page = page_of(PROBLEMS / f"{problem}.vipr", problem)
            keep(problem, page, PROBLEMS / f"{problem}.vipr")
            check("proved: " in page and "  goal   [" in page, f"{problem}: the goal")
        for data, wanted in STRANGE + OTHER_FILES:
            path.write_bytes(data)
            page = page_of(path, repr(data[:20]))
            check(wanted in page, f"{data[:20]!r}: {wanted!r}")
            keep(ascii(data[:200]), page, path)
        slips = [([], text, [wanted], [no] if no else []) for text, wanted, no in TEXTS]
        for words, text, wanted, unwanted in TRUE + slips:
            path.write_bytes(text.encode("latin-1"))
            page = explained(["--long", *words, path])[0]
            is_true(page, path.read_bytes(), text[:400], path, int(words[1]) if words else 1)
            page = page.decode("ascii", "replace")
            for part in wanted:
                check(part in page, f"{text[:400]!r}: {part!r} in {page}")
            for part in unwanted:
                check(part not in page, f"{text[:400]!r}: {part!r} in {page}")
            if not words:
                page_of(path, text[:40])
            if is_traced:
                opened_once(path)
            keep(
                " ".join([*words, text[:1000]])
                .replace("\n", " ")
                .encode("unicode_escape")
                .decode(),
                page,
                path,
            )
        for text in CAUSES:
            path.write_text(text)
            keep(text.replace("\n", " "), page_of(path, text), path)
        for text, wanted, length in MORE:
            path.write_text(text)
            page = page_of(path, wanted)
            check(wanted in page and len(page) >= length, f"{text[:400]!r}: {wanted!r} in {page}")
        of_a_pipe(Path(folder) / "pipe", PROBLEMS / "cutoff.vipr")
        changes_suffice()
        slips_are_named()
        untrue_helps()
        damaged_texts()
        large_texts()
        cut_pages(path)
        path.write_text(LATE)
        check("write 9000 or -1 here" in page_of(path, "a late reference"), "a late reference")
    check(
        len(CHANGED) >= LEAST_CHANGED + GIVEN.texts,
        f"one part was changed in {len(CHANGED)} pages",
    )
    compare()
    count_unreached()
    if not is_traced:
        CHECKS.skip("strace that may trace", "it is not known how often a file is opened")
    return CHECKS.end()


sys.exit(main())
