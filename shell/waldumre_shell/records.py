"""Records as trees, by the reader of the decoder."""
from decode import Reader

TRUE, FALSE, NOT, AND, OR, COMPARE, SOME = 16, 17, 18, 19, 20, 21, 22
CONSTANT, ATTRIBUTE, AGGREGATE, RANGE = 32, 33, 34, 1


def question(data):
    """Ranges, targets and condition."""
    return Reader(data).question()


def condition(data):
    return Reader(data).condition(1)


def trees(parts):
    ranges, targets, final = parts
    return [*targets, final]


def variables(parts):
    """The variables that a question binds, with relation and what binds them, in byte order."""
    bound = [(node.body[0], node.body[1], node) for node in parts[0]]
    return bound + [(*node.binds(), node) for tree in trees(parts) for node in tree.all() if node.binds()]


def used(parts, variable):
    """S: the attributes that the question uses of a variable, rising."""
    found = set()
    for tree in trees(parts):
        for node in tree.all():
            if node.kind == ATTRIBUTE and node.body[0] == variable:
                found.add(node.body[1])
            if node.kind == AGGREGATE and node.body[1] == variable:
                found.add(node.body[3])
    return sorted(found)


def write_constants(nodes, words):
    """Each constant is shown as it was written: as a name, or as a number."""
    for node, word in zip((node for node in nodes if node.kind == CONSTANT), words):
        node.word = word


def marks(symbols, data):
    """The symbol of each variable: attributes, aggregates and SOMEs stand in the records in the order of the text."""
    nodes = [node for tree in trees(question(data)) for node in tree.all() if node.kind in (ATTRIBUTE, AGGREGATE, SOME)]
    found = {}
    for node, symbol in zip(nodes, symbols):
        found.setdefault(node.body[1] if node.kind == AGGREGATE else node.body[0], symbol)
    return found
