"""Solves a knapsack by branch and bound, and writes the proof: python3 knapsack.py > proof.vipr"""
import sys
from fractions import Fraction

import vipr


def solve(file, profits, weights, room):
    """Writes the certificate of max profits * x, weights * x <= room, x in {0, 1}. The weights are
    positive."""
    names = [f"x{j}" for j in range(len(profits))]
    by_worth = sorted(range(len(names)), key=lambda j: Fraction(-profits[j], weights[j]))
    best = {"value": -1}

    with vipr.Writer(file, dict(zip(names, profits)), integers=names, maximize=True) as proof:
        least = [proof.constraint("G", 0, {name: 1}) for name in names]
        most = [proof.constraint("L", 1, {name: 1}) for name in names]
        full = proof.constraint("L", room, dict(zip(names, weights)))

        def node(low, high, least, most):
            """Proves that no point with low <= x <= high is better than the best; `least` and
            `most` are these bounds."""
            left, x, split, price = (
                room - sum(w * v for w, v in zip(weights, low)),
                list(low),
                None,
                Fraction(0),
            )
            if left < 0:  # 0 >= 1
                return proof.lin(
                    "G",
                    1,
                    {},
                    [
                        (full, Fraction(1, left)),
                        *((least[j], Fraction(-w, left)) for j, w in enumerate(weights)),
                    ],
                )
            for j in by_worth:
                if low[j] < high[j] and split is None:
                    x[j] = min(Fraction(1), Fraction(left, weights[j]))
                    left -= x[j] * weights[j]
                    if x[j] < 1:
                        split, price = j, Fraction(profits[j], weights[j])
            value = sum(p * v for p, v in zip(profits, x))
            if value > best["value"] and all(v == int(v) for v in x):
                best.update(value=int(value), x=x)
            if value < best["value"] + 1:  # the LP's dual solution, rounded
                reduced = [p - price * w for p, w in zip(profits, weights)]
                bounds = [most[j] if cost > 0 else least[j] for j, cost in enumerate(reduced)]
                entries = [(full, price), *zip(bounds, reduced)]
                return proof.rnd("L", best["value"], vipr.OBJECTIVE, entries)
            branches = []
            for sense, bound in (("L", 0), ("G", 1)):
                at = proof.asm(sense, bound, {names[split]: 1})
                bounds = [[*part] for part in (low, high, least, most)]
                for part, new in zip(bounds[sense == "L" :: 2], (bound, at)):
                    part[split] = new
                branches += [node(*bounds), at]
            return proof.uns("L", best["value"], vipr.OBJECTIVE, *branches)

        node([0] * len(names), [1] * len(names), least, most)
        proof.solution(dict(zip(names, best["x"])))
        proof.claim(best["value"], best["value"])


if __name__ == "__main__":
    solve(sys.stdout.buffer, [40, 25, 30, 18], [30, 20, 22, 16], 60)
