"""What the named cases share: edits as the papers give them, their blocks, and what is printed of them."""
from stored import CREATE, LONG, OLD, SET, SITES, block, forms, record, word_sum

BOX = (0, 1)
# the forms of a block, and how the name of a case ends for each
FORMS = {LONG: "", OLD: ", as an old block"}


def as_made(record):
    """A record as random_edits has an edit: its site, its vector, its record."""
    vector = tuple(int.from_bytes(record[at:at + 2], "little") for at in range(4, 4 + 2 * SITES, 2))
    return record[1], vector, record


def edit(kind, site, vector, *rest):
    return as_made(record(kind, site, vector, *rest))


def create():
    return edit(CREATE, 0, (1, 0, 0))


def boxes(number):
    """So many boxes by site 0, one after another."""
    return [edit(CREATE, 0, (i + 1, 0, 0)) for i in range(number)]


def put(site, vector, key, value):
    return edit(SET, site, vector, BOX, key, value)


def text(lines):
    return "".join(line + "\n" for line in lines).encode()


def refusal(number):
    return text(["refused %d" % number])


def stored(n, made, form=LONG):
    return block(n, [e[2] for e in made], form)


def in_forms(name, n, made, said):
    """The case in each form that it has: all print the same."""
    for form in forms(n, [e[2] for e in made]):
        yield name + FORMS[form], stored(n, made, form), said


def head(n, objects, versions, made):
    """Line 0 of a drawing that holds these edits."""
    return "sites %d objects %d versions %d sum %d" % (n, objects, versions, word_sum([e[2] for e in made]))


def causal_orders(made, order=()):
    """Every order of the edits in which each stands after all that its author had seen."""
    if len(order) == len(made):
        yield list(order)
    held = [sum(e[0] == s for e in order) for s in range(SITES)]
    for e in made:
        if e not in order and all(v <= held[s] + (s == e[0]) for s, v in enumerate(e[1])):
            yield from causal_orders(made, order + (e,))
