"""Wrong rules, as edits of bench/plain_check.py and, for the last folder, of
bench/plain_tighten.py.

For each folder of conformance/ what a checker might do otherwise: in words, and then pieces of the
model, each with what is written for it. tests/sharpness.py shows that a case of that folder finds
it. If all that find it there are choices, it is another reading of what the format leaves open, and
then no case of the format finds it, in any folder.
"""

# how the model finds the best solution, and where it takes it for the cutoff; what the primal bound
# needs stays
BEST = """        if self.best is None or (value < self.best if self.minimizes else value > self.best):
"""
CUTOFF = """else "G", self.best))""", """else "G", self.cutoff))"""

WRONG = {
    "text": [
        ("no comments", '''in SPACE + b"%"''', """in SPACE"""),
        ("the byte 0 is white space", '''rb"[^\\t-\\r ]+"''', '''rb"[^\\t-\\r \\x00]+"'''),
        ("the byte 0x85 is white space", '''rb"[^\\t-\\r ]+"''', '''rb"[^\\t-\\r \\x85]+"'''),
        (
            "vertical tab and form feed are no white space",
            '''rb"[^\\t-\\r ]+"''',
            '''rb"[^\\t\\n\\r ]+"''',
        ),
        (
            "what follows the last derivation is ignored",
            """if left is not None:""",
            """if False:""",
        ),
        ("tokens of 65,536 bytes", """LONGEST_TOKEN = 65535""", """LONGEST_TOKEN = 65536"""),
        (
            "tokens of 65,534 bytes at most",
            """LONGEST_TOKEN = 65535""",
            """LONGEST_TOKEN = 65534""",
        ),
        ("version 1.1", """one_of(3, b"1.0")""", """one_of(3, b"1.0", b"1.1")"""),
    ],
    "numbers": [
        ("no plus sign", """rb"([-+]?)""", """rb"(-?)"""),
        ("a sign in the denominator", '''(?:/([0-9]+))?"''', '''(?:/([-+]?[0-9]+))?"'''),
        ("decimals", """([0-9]+)(?:/""", """([0-9]+)(?:\\.0+)?(?:/"""),
        ("no limit for the denominator", """max(top, bottom) > LARGEST""", """top > LARGEST"""),
        (
            "the limit after reducing",
            """if max(top, bottom) > LARGEST:""",
            """if bottom and max(top, bottom) // gcd(top, bottom) > LARGEST:""",
        ),
        ("a limit of 2^127", """LARGEST = 2**127 - 1""", """LARGEST = 2**127"""),
        ("a limit of 63 bits", """LARGEST = 2**127 - 1""", """LARGEST = 2**63 - 1"""),
    ],
    "problem": [
        (
            "an index that is the number of variables",
            """int(token) >= variables""",
            """int(token) > variables""",
        ),
        ("a variable twice in a vector", """if index in seen:""", """if False:"""),
        ("coefficients 0 are kept", """if coefficient:""", """if True:"""),
        ("counts of 2^32", """LARGEST_COUNT = 2**32 - 1""", """LARGEST_COUNT = 2**32"""),
        (
            "no more bounds than constraints",
            """        tokens.count()
        for""",
            """        if tokens.count() > self.rows:
            raise Refused(7, "")
        for""",
        ),
        (
            "no leading zeros in counts",
            """        if not token.isdigit():
            raise Refused(7""",
            """        if not token.isdigit() or token[:1] == b"0" != token:
            raise Refused(7""",
        ),
        ("OBJ for no row", '''found[0] == b"OBJ"''', '''found[0] == b""'''),
        (
            "no name twice",
            """            self.row_names.append(self.name_ahead())""",
            """            if self.name_ahead() in self.row_names:
                raise Refused(2, "")
            self.row_names.append(self.name_ahead())""",
        ),
    ],
    "claim": [
        (
            "under max as under min",
            """self.bounds if self.minimizes else self.bounds[::-1]""",
            """self.bounds""",
        ),
        ("no solution has to attain the bound", """if bound is None:""", """if True:"""),
        (
            "a solution has to have exactly the bound",
            """(best > bound if self.minimizes else best < bound)""",
            """best != bound""",
        ),
        (
            "any solution attains the bound",
            """best is None or (best > bound if self.minimizes else best < bound)""",
            """best is None""",
        ),
        (
            "an empty objective needs no proof",
            """if self.goal is not None and self.goal_index is None:""",
            """if self.goal is not None and self.goal_index is None and (self.goal[0] or self.goal[2] > 0):""",
        ),
        (
            "-inf and inf in both places",
            """if token == infinite:""",
            """if infinite and token in (b"-inf", b"inf"):""",
        ),
    ],
    "solutions": [
        (
            "fractions at integer variables",
            """if point[index].denominator != 1:""",
            """if False:""",
        ),
        ("constraints are not tested", """if not holds(value, sense, right):""", """if False:"""),
        ("upper bounds are not tested", """"L": value <= right,""", """"L": True,"""),
        (
            "an equation is tested as a lower bound",
            """"E": value == right}""",
            """"E": value >= right}""",
        ),
        (
            "only the first one is tested",
            """            try:
                value = value_at(row, point)""",
            """            if own:
                break
            try:
                value = value_at(row, point)""",
        ),
        (
            "none is tested under infeas",
            """for index, (row, sense, right) in enumerate(self.constraints):""",
            """for index, (row, sense, right) in enumerate(self.constraints if self.bounds else []):""",
        ),
        (
            "rows are summed from the last variable on",
            """for index in sorted(row):""",
            """for index in sorted(row, reverse=True):""",
        ),
        (
            "no limit for the objective",
            """            refuse(23, "objective")""",
            """            value = Fraction(0)""",
        ),
    ],
    "asm": [
        ("it rests on nothing", """rests_on = frozenset([own])""", """rests_on = frozenset()"""),
        (
            "no equations",
            """            rests_on = frozenset([own])""",
            """            if stated[1] == "E":
                refuse(38)
            rests_on = frozenset([own])""",
        ),
        (
            "a sum rests on what its first entry does",
            """for index, multiplier in parts if multiplier]""",
            """for index, multiplier in parts[:1] if multiplier]""",
        ),
    ],
    "lin": [
        ("signs are not tested", """if turned * sign < 0:""", """if False:"""),
        ("an equation counts as a lower bound", """"E": 0}[sense]""", """"E": 1}[sense]"""),
        ("a negative multiplier turns nothing", """(1 if multiplier > 0 else -1)""", """1"""),
        (
            "a constraint that is named twice is added once",
            """enumerate(entries):""",
            """enumerate(dict(entries).items()):""",
        ),
        (
            "a sum without entries is 0 >= 0",
            """"LEG"[sign + 1], right""",
            """("LEG"[sign + 1] if entries else "G"), right""",
        ),
        ("no limit for sums", """bounded(left, right, total,""", """bounded(0,"""),
        (
            "no limit for the denominator of a sum",
            """, (x.denominator // shared) * (y.denominator // common))""",
            """)""",
        ),
        (
            "the limit after a sum was reduced",
            """bounded(left, right, total,""",
            """bounded(left, right, total // common,""",
        ),
        (
            "the limit before a product is reduced",
            """    product = x * y
""",
            """    product = x * y
    bounded(x.numerator * y.numerator, x.denominator * y.denominator)
""",
        ),
        (
            "it rests on nothing",
            """rests_on = frozenset().union(*sets)""",
            """rests_on = frozenset()""",
        ),
        ("an upper bound proves a lower one", """sense in "GE" and""", """sense in "GLE" and"""),
        ("a bound proves only weaker ones", """right >= bound""", """right > bound"""),
        (
            "an equation proves one with a smaller right-hand side",
            '''at_least and at_most and sense == "E"''',
            '''at_least and sense == "E"''',
        ),
        (
            "coefficients are not compared",
            """row == wanted and {""",
            """row.keys() == wanted.keys() and {""",
        ),
        (
            "a row proves a part of it",
            """row == wanted and {""",
            """wanted.items() <= row.items() and {""",
        ),
        (
            "a contradiction proves only its own row",
            """    if is_absurd(strong):
        return True
""",
            """""",
        ),
        ("0 = -1 is no contradiction", """"E": right != 0}""", """"E": right > 0}"""),
        ("0 <= 0 is a contradiction", """"L": right < 0,""", """"L": right <= 0,"""),
    ],
    "rnd": [
        (
            "up to the next integer, from an integer too",
            '''ceil(right) if sense == "G"''',
            '''floor(right) + 1 if sense == "G"''',
        ),
        ("towards 0", """else floor(right))""", """else int(right))"""),
        ("upper bounds are rounded up", """else floor(right))""", """else ceil(right))"""),
        ("continuous variables", """index in integers and row""", """row"""),
        (
            "fractional coefficients",
            """index in integers and row[index].denominator == 1""",
            """index in integers""",
        ),
        (
            "an equation with a fraction stays",
            """constraint if right.denominator == 1 else ABSURD""",
            """constraint""",
        ),
        (
            "the sum has to prove what is stated before it is rounded, too",
            """            if reason == "rnd":
""",
            """            if reason == "rnd":
                need(computed)
""",
        ),
        (
            "it rests on nothing",
            """rests_on = frozenset().union(*sets)""",
            """rests_on = frozenset()""",
        ),
    ],
    "uns": [
        (
            "both assumptions go from both branches",
            """(self.sets[first] - {left}) | (self.sets[second] - {right})""",
            """(self.sets[first] | self.sets[second]) - {left, right}""",
        ),
        (
            "each branch loses the assumption of the other",
            """(self.sets[first] - {left}) | (self.sets[second] - {right})""",
            """(self.sets[first] - {right}) | (self.sets[second] - {left})""",
        ),
        (
            "a gap of one integer",
            """other_right == right + 1""",
            """right + 1 <= other_right <= right + 2""",
        ),
        ("bounds may overlap", """other_right == right + 1""", """other_right <= right + 1"""),
        (
            "fractional bounds",
            """right.denominator == 1 and other_right""",
            """other_right""",
        ),
        (
            "branches on different rows",
            """ and row == other""",
            """""",
        ),
        (
            "branches on continuous variables",
            """ and whole_at(row, integers)""",
            """""",
        ),
        (
            "the upper bound has to be named first",
            """sorted((first, second), key=lambda constraint: constraint[1], reverse=True)""",
            """(first, second)""",
        ),
        (
            "any constraint is an assumption",
            """if index not in self.assumptions:""",
            """if False:""",
        ),
        (
            "the second branch is not looked at",
            """for index in first, second:""",
            """for index in (first,):""",
        ),
        (
            "under the second profile a gap of 1 covers",
            """ceil(lower[2]) <= floor(upper[2]) + 1""",
            """lower[2] <= upper[2] + 1""",
        ),
    ],
    "sol": [
        (
            "the last solution is the cutoff",
            BEST,
            f"""        self.cutoff = value
{BEST}""",
            *CUTOFF,
        ),
        (
            "the first solution is the cutoff",
            BEST,
            f"""        self.cutoff = self.cutoff if own else value
{BEST}""",
            *CUTOFF,
        ),
        (
            "the worst solution is the cutoff",
            BEST,
            f"""        if not own or (value > self.cutoff if self.minimizes else value < self.cutoff):
            self.cutoff = value
{BEST}""",
            *CUTOFF,
        ),
        (
            "a cutoff is an upper bound under max, too",
            """need((self.objective, "L" if self.minimizes else "G", self.best))""",
            """need((self.objective, "L", self.best))""",
        ),
        (
            "without a solution the cutoff is 0",
            """                refuse(39)""",
            """                self.best = Fraction(0)""",
        ),
        (
            "it proves anything",
            """            need((self.objective, "L" if self.minimizes else "G", self.best))
""",
            """""",
        ),
    ],
    "goal": [
        ("it may rest on assumptions", """ or self.sets[index]:""", """:"""),
        (
            "only derived constraints",
            """        for index in range(self.rows):
            self.look_at(index)
""",
            """""",
        ),
        (
            "only the last constraint",
            """        if self.goal is None or self.goal_index is not None or self.sets[index]:
            return
        if self.meets(self.constraints[index]):
            self.goal_index = index""",
            """        if self.goal is not None:
            met = not self.sets[index] and self.meets(self.constraints[index])
            self.goal_index = index if met else None""",
        ),
        (
            "it is rounded under the first profile, too",
            """if self.profile == 1 or not whole""",
            """if not whole""",
        ),
        (
            "any row is rounded under the second profile",
            """not whole or constraint[0] != self.objective:""",
            """not whole or not whole_at(constraint[0], self.integers):""",
        ),
        (
            "only integer bounds are proved by rounding",
            """whole = self.bounds is not None and whole_at""",
            """whole = self.bounds is not None and self.goal[2].denominator == 1 and whole_at""",
        ),
        (
            "nothing is rounded under the second profile",
            """if self.profile == 1 or not whole""",
            """if True or not whole""",
        ),
    ],
    "references": [
        (
            "assumptions are dropped",
            """ and index not in self.assumptions:
                if self.last""",
            """:
                if self.last""",
        ),
        (
            "dropped one derivation too late",
            """self.last[index] < own:""",
            """self.last[index] < own - 1:""",
        ),
        (
            "dropped one derivation too early",
            """self.last[index] < own:""",
            """self.last[index] <= own:""",
        ),
        ("nothing is dropped", """if counts and index >=""", """if False and index >="""),
        (
            "an entry with multiplier 0 is a reference",
            """refer(index, multiplier != 0)""",
            """refer(index)""",
        ),
        (
            "an entry with multiplier 0 may name anything",
            """                refer(index, multiplier != 0)""",
            """                if multiplier:
                    refer(index)""",
        ),
        (
            "an entry with multiplier 0 brings assumptions",
            """in parts if multiplier]""",
            """in parts]""",
        ),
        (
            "a last reference has to be later",
            """            last = tokens.reference()""",
            """            last = tokens.reference()
            if last < len(self.constraints):
                raise Refused(16, "")""",
        ),
        ("any spelling of -1", """found[0] == b"-1":""", """found[0].lstrip(b"-0") == b"1":"""),
        (
            "no limit for indices",
            """not token.isdigit() or int(token) > LARGEST_COUNT""",
            """not token.isdigit()""",
        ),
    ],
}

WRONG_TIGHTENING = [
    (
        "the assumptions of a join keep their numbers",
        """reason += [b"%d" % number(index) for index in self.indices]""",
        """reason += [b"%d" % (index if place % 2 else number(index)) for place, index in enumerate(self.indices)]""",
    ),
    ("entries with multiplier 0 stay", """if number != b"0"]""", """]"""),
    (
        "everything stays",
        """    kept = needed(checker.goal_index, rows, derivations)""",
        """    kept = range(rows, rows + len(derivations))""",
    ),
    (
        "a last reference is the first number that refers",
        """            last[other] = number(index)""",
        """            last.setdefault(other, number(index))""",
    ),
    ("every constraint is kept to the end", """last.get(index, -1)""", """-1"""),
    (
        "a join needs its conclusions alone",
        """            waiting += derivations[index - rows].references()""",
        """            one = derivations[index - rows]
            waiting += one.references() if one.entries else one.indices[::2]""",
    ),
]
