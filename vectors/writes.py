"""Images that load, and whose tables are then lent to the writer in other lengths, or with another room, than they should be."""

from tables import SMALL, Case, Writing, lay, nodes_in

LOADS = (0, 0, 0)


def cases():
    for name, its in SMALL:
        image, nodes, values = lay(its), nodes_in(its), len(its.values)
        for lent_nodes in (nodes, nodes - 1, nodes + 1):
            for lent_values in (values, values - 1, values + 1):
                for room in (len(image), len(image) + 9, len(image) - 1, 0):
                    lent = Writing(lent_nodes, lent_values, room)
                    yield Case(f"{name}, {lent}", image, nodes + 1, values + 1, LOADS, lent)
