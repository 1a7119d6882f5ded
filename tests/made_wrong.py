"""Wrong versions of bench/plain_check.py that are made by rule from its syntax tree.

Each comparison is turned and made more or less strict, each condition is left out, each constant is
moved, each loop loses its first or last round or all past a number of them, each operation is
exchanged for another, each statement is left out, a choice always takes the same side, and each
number is computed and compared as floating point, with a tolerance, to some decimal places or in a
machine's words. Functions that only print are left alone, and so are numbers of causes and what
tests vipr's limits.
"""
import ast
import operator
from collections import Counter, namedtuple
from fractions import Fraction
from functools import partial
from pathlib import Path

SOURCE = Path(__file__).resolve().parent.parent / "bench/plain_check.py"
# what a wrong version is called, the lines of the source that it changes (None if each case reaches
# them), whether it may be wrong past some number of things, and what makes it
Version = namedtuple("Version", "name lines is_of_size make")
# functions and variables that make no difference to the verdict, and what tests the limits of
# numbers, which are vipr's choice
PRINTING = {
    "readable", "written", "claim", "hold", "verdict", "explained", "main", "name_ahead", "refuse", "solution"
}  # fmt: skip
PRINTED = {"goal", "counts", "constraint", "variable"}
LIMITS = {"bounded", "LARGEST", "LARGEST_COUNT", "LONGEST_TOKEN", "CAUSES"}
# functions that compare numbers, and functions that compute them
COMPARING = {
    "dominates", "is_absurd", "holds", "is_split", "are_opposite", "covers", "primal_side", "rounded", "whole_at",
    "test_solution", "combined",
}  # fmt: skip
COMPUTING = {"add", "multiply", "value_at", "combined", "number", "rounded"}
# how many rounds a loop is cut to
ROUNDS = 1, 2, 10, 100, 1000
TURNED = {
    ast.Lt: (ast.LtE, ast.GtE), ast.LtE: (ast.Lt, ast.Gt), ast.Gt: (ast.GtE, ast.LtE), ast.GtE: (ast.Gt, ast.Lt),
    ast.Eq: (ast.NotEq, ast.LtE, ast.GtE), ast.NotEq: (ast.Eq, ast.Lt, ast.Gt), ast.In: (ast.NotIn,), ast.NotIn: (ast.In,),
    ast.Is: (ast.IsNot,), ast.IsNot: (ast.Is,),
}  # fmt: skip
OTHER = {
    ast.Add: (ast.Sub,), ast.Sub: (ast.Add,), ast.Mult: (ast.Add,), ast.BitOr: (ast.BitAnd, ast.Sub, ast.BitXor),
    ast.BitAnd: (ast.BitOr,), ast.FloorDiv: (ast.Mult,),
}  # fmt: skip
CALLED = {"max": "min", "min": "max", "any": "all", "all": "any", "ceil": "floor", "floor": "ceil"}
ORDERS = {ast.Lt: "lt", ast.LtE: "le", ast.Gt: "gt", ast.GtE: "ge", ast.Eq: "eq", ast.NotEq: "ne"}


# ---- numbers as a machine has them


def in_bits(bits, number):
    """The nearest number with so many binary digits."""
    size = abs(number.numerator).bit_length() - number.denominator.bit_length()
    scale = Fraction(2) ** (bits - size - (abs(number) >= Fraction(2) ** size))
    return Fraction(round(number * scale)) / scale


def in_word(bits, number):
    """Numerator and denominator as they wrap around in a machine's words."""
    half = 2 ** (bits - 1)
    top, bottom = (
        (part + half) % (2 * half) - half for part in (number.numerator, number.denominator)
    )
    return Fraction(top, bottom or 1)


KINDS = {
    "double": lambda number: in_bits(53, number),
    "long double": lambda number: in_bits(64, number),
    "quad": lambda number: in_bits(113, number),
    "64-bit words": lambda number: in_word(64, number),
    "6 decimal places": lambda number: Fraction(round(number * 10**6), 10**6),
}
SLACKS = ("1e-6", False), ("1e-9", False), ("1e-30", False), ("1e-15", True)


def machine(kind, value):
    """A number as a machine has it, or a row of such numbers."""
    if isinstance(value, dict):
        return {index: machine(kind, number) for index, number in value.items()}
    return KINDS[kind](Fraction(value)) if isinstance(value, (int, Fraction)) else value


def within(slack, relative, order, left, right):
    """Whether a comparison of two numbers, or of two rows, holds within a slack."""
    if isinstance(left, dict):
        return left.keys() == right.keys() and all(
            within(slack, relative, order, left[index], right[index]) for index in left
        )
    if not isinstance(left, (int, Fraction)) or not isinstance(right, (int, Fraction)):
        return getattr(operator, order)(left, right)
    most = Fraction(slack) * (max(1, abs(left), abs(right)) if relative else 1)
    if order in ("eq", "ne"):
        return (abs(left - right) <= most) == (order == "eq")
    return left <= right + most if order in ("le", "lt") else left >= right - most


# ---- the rules


def parsed(code):
    """The tree of an expression."""
    return ast.parse(code, mode="eval").body


def of_numbers(node):
    """What a comparison of numbers is exchanged for."""
    left, right = ast.unparse(node.left), ast.unparse(node.comparators[0])
    order, sign = ORDERS[type(node.ops[0])], ast.unparse(node)[len(left) : -len(right)]
    if left.endswith(".denominator"):
        # whether the number is an integer
        number = left.removesuffix(".denominator")
        changed = [f"machine({kind!r}, {number}).denominator{sign}{right}" for kind in KINDS]
        left, right = number, f"Fraction(round({number}))"
    else:
        changed = [f"machine({kind!r}, {left}){sign}machine({kind!r}, {right})" for kind in KINDS]
    changed += [
        f"within({slack!r}, {relative}, {order!r}, {left}, {right})" for slack, relative in SLACKS
    ]
    return map(parsed, changed)


def of_comparison(node, function):
    """What a comparison is exchanged for."""
    for other in TURNED[type(node.ops[0])]:
        yield ast.Compare(node.left, [other()], node.comparators)
    if function in COMPARING and type(node.ops[0]) in ORDERS and "'" not in ast.unparse(node):
        yield from of_numbers(node)


def of_loop(items):
    """What the items of a loop are exchanged for."""
    code = ast.unparse(items)
    few = isinstance(items, ast.Tuple) or code == "range(4)"
    for part in ["1:", ":-1", *(f":{rounds}" for rounds in ROUNDS[: 1 if few else None])]:
        yield parsed(f"list({code})[{part}]")


def of_call(node, function):
    """What a call is exchanged for."""
    name, code = ast.unparse(node.func), ast.unparse(node)
    if name in CALLED:
        yield ast.Call(ast.Name(CALLED[name], ast.Load()), node.args, node.keywords)
    if name == "sorted":
        yield ast.Call(ast.Name("list", ast.Load()), node.args[:1], [])
    if name in ("ceil", "floor"):
        number, sign = ast.unparse(node.args[0]), "-" if name == "ceil" else "+"
        yield from (parsed(f"{name}(machine({kind!r}, {number}))") for kind in KINDS)
        for slack, relative in SLACKS:
            most = f"Fraction({slack!r})" + f" * max(1, abs({number}))" * relative
            yield parsed(f"{name}({number} {sign} {most})")
    if function in COMPUTING and name in ("add", "multiply", "Fraction"):
        yield from (parsed(f"machine({kind!r}, {code})") for kind in KINDS)


def of_expression(node, function):
    """What an expression is exchanged for."""
    if isinstance(node, ast.Compare):
        yield from of_comparison(node, function)
    elif isinstance(node, ast.Call):
        yield from of_call(node, function)
    elif isinstance(node, ast.Constant) and isinstance(node.value, int):
        moved = (
            [not node.value] if isinstance(node.value, bool) else [node.value + 1, node.value - 1]
        )
        yield from map(ast.Constant, moved)
    elif isinstance(node, ast.BinOp):
        for other in OTHER.get(type(node.op), ()):
            yield ast.BinOp(node.left, other(), node.right)
        yield from (node.left, node.right)
        if ast.unparse(node) in ("x + y", "x * y"):
            yield from (parsed(f"machine({kind!r}, {ast.unparse(node)})") for kind in KINDS)
    elif isinstance(node, ast.BoolOp):
        yield ast.BoolOp(ast.Or() if isinstance(node.op, ast.And) else ast.And(), node.values)
        for place in range(len(node.values)):
            rest = node.values[:place] + node.values[place + 1 :]
            yield rest[0] if len(rest) == 1 else ast.BoolOp(node.op, rest)
    elif isinstance(node, ast.UnaryOp):
        yield node.operand
    elif isinstance(node, ast.IfExp):
        yield from (node.body, node.orelse)
    elif isinstance(node, ast.Tuple) and len(node.elts) == 2 and isinstance(node.ctx, ast.Load):
        yield ast.Tuple(node.elts[::-1], ast.Load())
    elif isinstance(node, ast.comprehension):
        yield from (
            ast.comprehension(node.target, items, node.ifs, 0) for items in of_loop(node.iter)
        )


def of_statement(node):
    """What a statement is exchanged for."""
    simple = isinstance(node, (ast.Assign, ast.AugAssign, ast.Raise, ast.Expr))
    if simple and not isinstance(getattr(node, "value", None), ast.Constant):
        yield ast.Pass()
    if isinstance(node, ast.If):
        yield from (ast.If(ast.Constant(test), node.body, node.orelse) for test in (True, False))
    if isinstance(node, ast.For):
        yield from (
            ast.For(node.target, items, node.body, node.orelse) for items in of_loop(node.iter)
        )


# ---- the tree


def children(node):
    """The nodes below a node, each with what puts another one in its place."""
    for field, value in ast.iter_fields(node):
        if isinstance(value, ast.AST):
            yield value, lambda other, field=field: setattr(node, field, other)
        elif isinstance(value, list):
            for place, one in enumerate(value):
                if isinstance(one, ast.AST):
                    yield one, lambda other, value=value, place=place: value.__setitem__(
                        place, other
                    )


def is_left_alone(node, function):
    """Whether no rule applies to a node, nor to what is below: it makes no difference to the
    verdict, or only by a limit."""
    if isinstance(node, ast.FunctionDef):
        return node.name in PRINTING | LIMITS
    code = ast.unparse(node)
    if not function and isinstance(node, (ast.Assign, ast.If)):
        return code.split(" ")[0] in LIMITS or "__main__" in code
    if isinstance(node, ast.Call):
        return code.startswith(("Refused(", "refuse("))
    if isinstance(node, ast.Expr) and code.startswith("bounded("):
        return True
    # what is computed for the test of a limit alone, and what is printed
    in_sum = function == "add" and isinstance(node, ast.Assign)
    is_printed = isinstance(node, ast.Assign) and code.split(" ")[0] in PRINTED
    return in_sum or is_printed or isinstance(node, ast.JoinedStr)


def places(node, function=""):
    """Each node that may be exchanged: its function, itself, what puts another one in its place,
    and what may be put there."""
    for child, put in children(node):
        if is_left_alone(child, function):
            continue
        if (
            isinstance(node, ast.Call)
            and ast.unparse(node.func).endswith("one_of")
            and isinstance(child, ast.Constant)
        ):
            if isinstance(child.value, int):
                continue
        inner = child.name if isinstance(child, ast.FunctionDef) else function
        others = (
            of_statement(child) if isinstance(child, ast.stmt) else of_expression(child, function)
        )
        yield from ((inner, child, put, other) for other in others)
        yield from places(child, inner)


def header(node):
    """The lines of a node, without the body of a loop or a condition."""
    last = node.body[0].lineno if isinstance(node, (ast.For, ast.If)) else node.end_lineno + 1
    return range(node.lineno, last)


def run(code, **more):
    """What a wrong version defines."""
    names = {"machine": machine, "within": within, "in_word": in_word, "__name__": "wrong", **more}
    exec(code, names)
    return names


def made(tree, node, put, other):
    """What a wrong version defines, in which one node is exchanged for another."""
    put(other)
    code = compile(tree, "wrong", "exec")
    put(node)
    return run(code)


def versions():
    """The wrong versions, each with a name of its own: the function, what stands there, and what is
    written for it."""
    tree, seen = ast.parse(SOURCE.read_text()), Counter()
    for function, node, put, other in list(places(tree)):
        placed = node.iter if isinstance(node, ast.comprehension) else node
        ast.fix_missing_locations(ast.copy_location(other, placed))
        old, new = (ast.unparse(part).split("\n")[0].rstrip(":").strip() for part in (node, other))
        name = f"{function or 'head'}: {old} -> {new}"
        seen[name] += 1
        if seen[name] > 1:
            name += f" ({seen[name]})"
        is_of_size = "list(" in new and "[" in new
        make = partial(made, tree, node, put, other)
        yield Version(name, header(placed) if function else None, is_of_size, make)
