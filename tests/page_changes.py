"""Changes of a page of `vipr explain --long` after which it isn't true any more: one number, sign, name or mark is another one."""
import re


def changed(page, facts, chance):
    """The page with one change, or as it was if nothing in it can be changed."""
    changes = [other_number, other_sign, other_name, other_mark]
    chance.shuffle(changes)
    for change in changes:
        other = change(page, facts, chance)
        if other is not None:
            return other
    return page


def replaced(page, places, chance, new):
    """The page with the text of one of the places replaced, None if there is no place."""
    found = chance.choice(places) if places else None
    return found and page[: found.start()] + new(found[0]) + page[found.end() :]


def other_number(page, _, chance):
    places = [*re.finditer(r"\d+", page)]
    return replaced(
        page, places, chance, lambda number: str(int(number) + chance.choice([1, 2, 10]))
    )


def other_sign(page, _, chance):
    """The sign of a number that isn't 0, or a sense."""
    places = [*re.finditer(r">=|<=|(?<=[\w.]) [-+] (?=[\w(])|(?<= )-?(?=\d)(?!0\b(?!\.))", page)]
    others = {">=": "<=", "<=": ">=", " + ": " - ", " - ": " + ", "-": "", "": "-"}
    return replaced(page, places, chance, others.__getitem__)


def other_name(page, facts, chance):
    known = {name.decode("latin-1") for name in facts.problem.names} if facts.problem else set()
    known |= {token.bytes.decode("latin-1") for token in facts.names.values()}
    places = [word for word in re.finditer(r"\b[A-Za-z_]\w*", page) if word[0] in known]
    return replaced(page, places, chance, lambda name: name + chance.choice("aZ_7"))


def other_mark(page, _, chance):
    places = [*re.finditer(r"(?m)^ *\| +(?:\^+|-+)(?= )", page)]
    return replaced(
        page,
        places,
        chance,
        lambda mark: chance.choice([mark + mark[-1], mark.replace("| ", "|  ", 1)]),
    )
