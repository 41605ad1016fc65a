"""crates.txt: the crates, what each names, and which stand above others."""


def graph_of(text):
    """Each crate with the names on its line, libraries of the kit among them, in the order of the lines."""
    return {name: named for name, _, named in lines_of(text)}


def lines_of(text):
    """Name, kind (as `staticlib`) and named crates of each line."""
    for line in text.splitlines():
        head, _, named = line.partition("#")[0].partition(":")
        if head.split():
            name, *kind = head.split()
            yield name, kind, named.split()


def with_above(graph, names):
    """These crates and all that name one of them, directly or not."""
    found = set(names)
    while True:
        more = {crate for crate, named in graph.items() if found.intersection(named)} - found
        if not more:
            return found
        found |= more


def in_order(graph, names):
    """Some crates in the order of crates.txt."""
    return [crate for crate in graph if crate in names]
