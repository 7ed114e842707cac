"""Graphs in general: strongly connected components, and edges that a longer path makes superfluous."""


def components(edges, nodes):
    """The strongly connected components, by Tarjan, without recursion; each after those that it reaches."""
    index, low, stack, on_stack, found, work = {}, {}, [], set(), [], []

    def enter(node):
        index[node] = low[node] = len(index)
        stack.append(node)
        on_stack.add(node)
        work.append((node, iter(sorted(edges.get(node, ())))))

    def leave(node):
        work.pop()
        if work:
            above = work[-1][0]
            low[above] = min(low[above], low[node])
        if low[node] == index[node]:
            members = []
            while not members or members[-1] != node:
                members.append(stack.pop())
            on_stack.difference_update(members)
            found.append(members)

    for root in nodes:
        if root not in index:
            enter(root)
        while work:
            node, rest = work[-1]
            for it in rest:
                if it not in index:
                    enter(it)
                    break
                if it in on_stack:
                    low[node] = min(low[node], index[it])
            else:
                leave(node)
    return found


def reduced(edges, order):
    """The edges without those that a longer path makes too; `order` has callees first. Sets are bits of integers."""
    bit = {node: 1 << at for at, node in enumerate(order)}
    reach, kept = {}, {}
    for node in order:
        below, mine = 0, []
        for it in sorted(edges.get(node, ()), key=bit.get, reverse=True):
            if not below & bit[it]:
                mine.append(it)
            below |= bit[it] | reach[it]
        reach[node], kept[node] = below, mine
    return kept
