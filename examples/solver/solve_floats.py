#!/usr/bin/env python3
"""The same as solve.py for larger models: floating-point numbers search, and exact ones prove.

    python3 solve_floats.py model.mps > proof.vipr && vipr check proof.vipr

HiGHS (of scipy) solves the linear program of each node. Its dual solution is wrong in the last
digits, so it proves nothing. But any dual solution near it will do: its numbers are rounded to
fractions with one small denominator, and what then is left of the objective is taken up by the
bounds of variables, exactly. The bound that is proved so is a little weaker, or not at all if the
rounded objective is whole. If that fails, as a variable has no bound, the node is solved exactly,
which takes longer.
"""

import sys
from fractions import Fraction
from math import inf, lcm

import solve
from simplex import Infeasible, LinearProgram, Optimum

try:
    from scipy.optimize import linprog
    from scipy.sparse import csr_matrix
except ImportError:
    sys.exit("solve_floats.py needs scipy, which is python3-scipy in Debian; solve.py does without")

CLOSE = 1e-6
SIMPLE, FINE = 1000, 10**6
OPTIMAL, INFEASIBLE = 0, 2


class FloatProgram(LinearProgram):
    """A linear program that HiGHS solves, and whose answers are repaired."""

    def __init__(self, costs, rows, sides):
        super().__init__(costs, rows, sides)
        self.first = 2 * len(costs)
        entries = [
            (at, j, -float(value))
            for at, row in enumerate(self.rows[self.first :])
            for j, value in row.items()
        ]
        at, columns, values = zip(*entries) if entries else ((), (), ())
        shape = len(self.rows) - self.first, len(costs)
        self.matrix = csr_matrix((values, (at, columns)), shape=shape)
        # with one more column, by which each row may be broken
        self.elastic = csr_matrix(
            (
                (*values, *[-1.0] * shape[0]),
                ((*at, *range(shape[0])), (*columns, *[shape[1]] * shape[0])),
            ),
            shape=(shape[0], shape[1] + 1),
        )

    def solve(self):
        lower, upper = self.sides[0 : self.first : 2], self.sides[1 : self.first : 2]
        box = [
            (-inf if low is None else float(low), inf if up is None else -float(up))
            for low, up in zip(lower, upper)
        ]
        if any(low > up for low, up in box):
            return self.solve_exactly()
        found = self.by_floats(self.costs, self.matrix, box)
        proved = (
            self.proved(found.ineqlin.marginals, self.costs) if found.status == OPTIMAL else None
        )
        if proved:
            value, multipliers = proved
            return Optimum(value / self.cost_scale, self.point(found.x), self.unscaled(multipliers))
        if found.status == INFEASIBLE:
            # The least violation of the rows is above 0, and its dual solution is a Farkas proof.
            nothing = [0] * len(box)
            found = self.by_floats([*nothing, 1], self.elastic, [*box, (0, inf)])
            proved = (
                self.proved(found.ineqlin.marginals, nothing) if found.status == OPTIMAL else None
            )
            if proved and proved[0] > 0:
                raise Infeasible([(k, value * self.scales[k]) for k, value in proved[1]])
        return self.solve_exactly()

    def by_floats(self, costs, matrix, box):
        """What HiGHS answers."""
        right = [-float(side) for side in self.sides[self.first :]]
        return linprog(list(map(float, costs)), matrix, right, bounds=box, method="highs")

    def proved(self, marginals, costs):
        """The best exact bound near some dual values, and the multipliers that prove it; None if
        there is none."""
        duals = [max(0.0, -value) for value in marginals]
        simple = lcm(*(Fraction(dual).limit_denominator(SIMPLE).denominator for dual in duals))
        found = [self.repaired(duals, costs, below) for below in {min(simple, FINE), FINE}]
        return max(filter(None, found), default=None, key=lambda proof: proof[0])

    def repaired(self, duals, costs, denominator):
        """The bound and the multipliers of dual values that are rounded to a denominator."""
        multipliers = {}
        rest = [cost * denominator for cost in costs]
        for k, dual in enumerate(duals, self.first):
            multiplier = round(dual * denominator)
            if multiplier:
                multipliers[k] = multiplier
                for j, value in self.rows[k].items():
                    rest[j] -= multiplier * value
        # `d * x[j] >= d * lower` if d is above 0, and else `d * x[j] >= d * upper`
        for j, left in enumerate(rest):
            if left:
                k = 2 * j + (left < 0)
                if self.sides[k] is None:
                    return None
                multipliers[k] = abs(left)
        value = Fraction(sum(self.sides[k] * value for k, value in multipliers.items()))
        shares = [(k, Fraction(value, denominator)) for k, value in multipliers.items()]
        return value / denominator, shares

    def unscaled(self, multipliers):
        """Multipliers of the conditions and the objective as they were given."""
        return [(k, value * self.scales[k] / self.cost_scale) for k, value in multipliers]

    def point(self, values):
        """A point as fractions; what is nearly an integer is one."""
        nearest = [Fraction(value).limit_denominator(FINE) for value in values]
        return [Fraction(round(v)) if abs(v - round(v)) < CLOSE else v for v in nearest]


if __name__ == "__main__":
    sys.exit(solve.main(FloatProgram))
