"""An exact linear program, solved by the dual simplex method in integers.

All that is asked of a point is a list of conditions `row * x >= side`, bounds and rows alike. A
vertex is a point at which as many conditions as there are variables hold with equality: the active
ones. Each has an edge, along which it alone grows, and a dual value, which is what the objective
gains on that edge. While the duals are at least 0, they are a proof: the sum of the active
conditions, each times its dual, is `objective >= value`. The method goes from such a vertex to the
next until no condition is broken.
"""

from fractions import Fraction
from math import lcm


class Infeasible(Exception):
    """No point meets the conditions: their sum with these multipliers is `0 >= a number above
    0`."""

    def __init__(self, multipliers):
        super().__init__("infeasible")
        self.multipliers = multipliers


class Unbounded(Exception):
    """The objective has no least value."""


class Optimum:
    """The least value of an objective, a point that has it, and the multipliers of the conditions
    that prove it."""

    def __init__(self, value, point, multipliers):
        self.value, self.point, self.multipliers = value, point, multipliers


def scale_to_integers(numbers):
    """The least positive number that makes all of them integers."""
    return lcm(*(number.denominator for number in numbers))


def whole_if_possible(number):
    """The same number, as an int if it is whole."""
    return number.numerator if number.denominator == 1 else number


class LinearProgram:
    """Minimizes `costs * x` over conditions `rows[k] * x >= sides[k]`.

    Rows go by variable. The first conditions are the bounds of variables: 2j is `x[j] >= side`, and
    2j + 1 is `-x[j] >= side`. The side of a bound that is infinite is None.
    """

    def __init__(self, costs, rows, sides):
        self.cost_scale = scale_to_integers(costs)
        self.costs = [int(cost * self.cost_scale) for cost in costs]
        self.scales = [scale_to_integers(row.values()) for row in rows]
        self.rows = [
            {j: int(value * scale) for j, value in row.items()}
            for row, scale in zip(rows, self.scales)
        ]
        # (a side may stay a fraction: nothing is divided by it)
        self.sides = [
            None if side is None else whole_if_possible(side * scale)
            for side, scale in zip(sides, self.scales)
        ]
        size = len(costs)
        # the bound of each variable that the objective pushes it to; a missing one stands for a
        # bound that is far away
        self.active = [2 * j + (cost < 0) for j, cost in enumerate(self.costs)]
        # edges and duals are divided by the common denominator, so they are integers
        self.denominator = 1
        self.edges = [
            [self.rows[k].get(i, 0) if i == j else 0 for i in range(size)]
            for j, k in enumerate(self.active)
        ]
        self.duals = [abs(cost) for cost in self.costs]

    def copy(self):
        """The same program; the sides of one can be changed without the other."""
        other = object.__new__(type(self))
        other.__dict__.update(self.__dict__)
        for part in ("sides", "active", "edges", "duals"):
            setattr(other, part, list(getattr(self, part)))
        return other

    def tighten(self, condition, side):
        """Gives the bound of a variable another side, an integer."""
        self.sides[condition] = side

    def solve(self):
        """Gives the Optimum. Raises Infeasible or Unbounded."""
        return self.solve_exactly()

    def solve_exactly(self):
        """The same; what else a subclass solves by, this is exact."""
        while True:
            near, far = self.vertex()
            broken = self.first_broken(near, far)
            if broken is None:
                return self.optimum(near, far)
            self.pivot(broken)

    def vertex(self):
        """The point times the denominator, in two parts: what is near, and what is multiplied by a
        distance without end."""
        size = len(self.costs)
        near, far = [0] * size, [0] * size
        for k, edge in zip(self.active, self.edges):
            part, side = (far, -1) if self.sides[k] is None else (near, self.sides[k])
            if side:
                for i, value in enumerate(edge):
                    part[i] += side * value
        return near, far

    def first_broken(self, near, far):
        """The first condition that the point doesn't meet. (The first of all: then the method ends,
        which is Bland's rule.)"""
        for k, (row, side) in enumerate(zip(self.rows, self.sides)):
            if side is not None:
                away = sum(value * far[j] for j, value in row.items())
                if away < 0:
                    return k
                if away == 0:
                    found = sum(value * near[j] for j, value in row.items())
                    if found < side * self.denominator:
                        return k
        return None

    def pivot(self, entering):
        """Makes a broken condition active, in place of the one whose dual value would fall below 0
        first."""
        row = self.rows[entering]
        gains = [sum(value * edge[j] for j, value in row.items()) for edge in self.edges]
        leaving = None
        for at, gain in enumerate(gains):
            if gain > 0:
                if leaving is not None:
                    # duals[at] / gain against duals[leaving] / gains[leaving]
                    order = self.duals[at] * gains[leaving] - self.duals[leaving] * gain
                if leaving is None or (order, self.active[at]) < (0, self.active[leaving]):
                    leaving = at
        if leaving is None:
            multipliers = [(entering, self.denominator)]
            multipliers += [(k, -gain) for k, gain in zip(self.active, gains) if gain]
            raise Infeasible([(k, value * self.scales[k]) for k, value in multipliers])
        divisor, pivot = self.denominator, gains[leaving]
        edge, dual = self.edges[leaving], self.duals[leaving]
        for at, gain in enumerate(gains):
            if at != leaving:
                # (these divisions leave no remainder: the results are determinants)
                self.edges[at] = [
                    (old * pivot - gain * new) // divisor for old, new in zip(self.edges[at], edge)
                ]
                self.duals[at] = (self.duals[at] * pivot - gain * dual) // divisor
        self.denominator, self.active[leaving] = pivot, entering

    def optimum(self, near, far):
        """What is found at a vertex that meets all conditions."""
        if any(dual and self.sides[k] is None for k, dual in zip(self.active, self.duals)):
            raise Unbounded
        multipliers = [
            (k, Fraction(dual * self.scales[k], self.denominator * self.cost_scale))
            for k, dual in zip(self.active, self.duals)
            if dual
        ]
        value = sum(multiplier * self.side(k) for k, multiplier in multipliers)
        distance = 0
        while True:
            point = [Fraction(a + distance * b, self.denominator) for a, b in zip(near, far)]
            if self.is_met(point):
                return Optimum(Fraction(value), point, multipliers)
            distance = 2 * distance + 1

    def side(self, condition):
        """The side of a condition as it was given."""
        return Fraction(self.sides[condition], self.scales[condition])

    def is_met(self, point):
        """Whether a point meets all conditions."""
        return all(
            side is None or sum(value * point[j] for j, value in row.items()) >= side
            for row, side in zip(self.rows, self.sides)
        )
