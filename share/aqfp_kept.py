"""What `cells.py --keep` does: the cells of a netlist stay on their levels, and only what `draw` refuses is mended.

A graph has nodes, which are inputs, majorities, splitters and the ends of outputs, and edges between them, which stand
for wires and the buffers with one use on them. An edge that inverts needs such a buffer, which becomes an inverter.
Where it has none, the opposite of its node may do: that of a majority is the majority of the opposites. Where that does
not help either, a row is put between two levels, which gives each wire there a buffer."""
import collections

from aqfp_cells import CellRows, Graph
from aqfp_files import Stop


class KeptGraph(Graph):
    """A graph in which each definition of one signal stays, but for names of outputs and what is constant. Such a
    buffer is the signal that it takes, and whether it inverts it."""

    def __init__(self, source):
        self.buffers = {}
        self.named = {each for _, takes, _ in source.definitions.values() for each in takes}
        self.names = {name for name in source.outputs if name not in self.named}
        super().__init__(source)

    def alone(self, name, operand):
        if operand[0] is None or name in self.names and len(self.source.definitions[name][1]) == 1:
            return operand
        self.buffers[name] = operand
        return name, False

    def takes(self, name):
        """The operands of a definition that stays."""
        return [self.buffers[name]] if name in self.buffers else self.majorities.get(name, [])

    def keep_used(self):
        waiting, used = [name for name, _ in self.shown], set()
        while waiting:
            name = waiting.pop()
            if name not in used:
                used.add(name)
                waiting += [each for each, _ in self.takes(name)]
        self.order = [name for name in (*self.buffers, *self.majorities) if name in used]
        self.buffers = {name: operand for name, operand in self.buffers.items() if name in used}
        self.majorities = {name: takes for name, takes in self.majorities.items() if name in used}

    def uses(self):
        """How many uses each signal has, by definitions and outputs."""
        return collections.Counter(name for takes in (*map(self.takes, self.order), self.shown) for name, _ in takes
                                   if name is not None)

    def levels(self, uses):
        """The level of each signal. An input that all its uses take through one plain buffer stands for that buffer, if
        so do all inputs; it is one lower then."""
        plain = {signal for name, (signal, inverted) in self.buffers.items() if not inverted and uses[name] < 2}
        self.doubled = all(uses[name] == 0 or uses[name] == 1 and name in plain for name in self.source.inputs)
        levels = dict.fromkeys(self.source.inputs, -1 if self.doubled else 0)
        for name in self.source.in_order():
            if name in self.buffers or name in self.majorities:
                levels[name] = 1 + max(levels[each] for each, _ in self.takes(name) if each is not None)
        return levels


class Node:
    """An input, a majority, a splitter, or the end of an output, which is its buffer in the last row. It takes edges,
    and constants by their values. Flipped it shows the opposite of what it shows in the netlist. Its own name is that
    of its cell in the netlist, if it has one there."""
    __slots__ = ("kind", "name", "own", "level", "takes", "users", "flipped", "cell")

    def __init__(self, kind, name, level, own=None):
        self.kind, self.name, self.own, self.level, self.takes, self.users = kind, name, own, level, [], []
        self.flipped = False


class Edge:
    """A wire with its buffers: where it comes from, where it goes, whether it inverts, and the buffers of the netlist
    on it, from below, each with whether it inverts."""
    __slots__ = ("source", "user", "inverted", "chain")

    def __init__(self, source, user, inverted, chain):
        self.source, self.user, self.inverted, self.chain = source, user, inverted, chain

    def odd(self):
        """Whether a cell on it has to invert."""
        return self.inverted ^ self.source.flipped ^ self.user.flipped

    def room(self):
        """How many levels further its ends stand apart than they have to."""
        return self.user.level - self.source.level - 1 - self.odd()


class Wiring:
    """The nodes of a graph, each after those that it takes, and the ends of its outputs."""

    def __init__(self, graph, most):
        self.graph, self.uses = graph, graph.uses()
        levels = graph.levels(self.uses)
        self.found = {name: Node("input", name, 0) for name in graph.source.inputs}
        for name in graph.source.in_order():
            if name in graph.majorities or self.uses[name] > 1 and name in graph.buffers:
                kind = "majority" if name in graph.majorities else "splitter"
                self.found[name] = Node(kind, name, levels[name], name)
                for operand in graph.takes(name):
                    self.connect(self.found[name], operand)
        self.ends = [self.end(operand, levels) for operand in graph.shown]
        self.nodes = [*branched(self.found.values(), most), *self.ends]
        self.changed = len(self.nodes) > len(self.found) + len(self.ends)

    def connect(self, user, operand):
        """Lets a node take an operand, down through the buffers with one use."""
        name, inverted = operand
        if name is None:
            user.takes.append(inverted)
            return
        chain = []
        while name in self.graph.buffers and self.uses[name] < 2:
            below, inverts = self.graph.buffers[name]
            chain.append((name, inverts))
            name, inverted = below, inverted ^ inverts
        source = self.found[name]
        if source.kind == "input" and self.graph.doubled:
            source.own = chain.pop()[0]
        edge = Edge(source, user, inverted, chain[::-1])
        user.takes.append(edge)
        source.users.append(edge)

    def end(self, operand, levels):
        """The end of an output. A buffer with no other use is itself the end."""
        name = operand[0]
        own = name in self.graph.buffers and self.uses[name] < 2
        end = Node("end", name or "constant", max(1, levels.get(name, 0) + (not own)))
        self.connect(end, operand)
        if own and end.takes[0].chain:
            end.own = end.takes[0].chain.pop()[0]
        return end


def branched(nodes, most):
    """Nodes with splitters where one has more uses than it may have; those with the latest users come first."""
    found = []
    for node in nodes:
        found.append(node)
        place, limit = len(found), most if node.kind == "splitter" else 1
        while len(node.users) > limit:
            node.users.sort(key=lambda edge: edge.user.level - len(edge.chain))
            fed = node.users[-most:]
            level = min(edge.user.level - len(edge.chain) for edge in fed) - 1
            splitter = Node("splitter", f"{node.name}.split", max(level, node.level + 1))
            del node.users[-most:]
            for edge in fed:
                edge.source = splitter
            splitter.users = fed
            splitter.takes = [Edge(node, splitter, False, [])]
            node.users += splitter.takes
            found.insert(place, splitter)
    return found


def settle(nodes, ends):
    """Raises nodes until each stands above what it takes, and the ends on one level; answers whether one was raised."""
    before = [node.level for node in nodes]
    for node in nodes:
        for edge in node.takes:
            if isinstance(edge, Edge):
                node.level = max(node.level, edge.source.level + 1)
    last = max(end.level for end in ends)
    for end in ends:
        end.level = last
    return any(node.level > level for node, level in zip(nodes, before) if node.kind != "end")


class Signs:
    """Which nodes may be flipped: sets of nodes whose signs hang together, each node with its sign beside its set's."""

    def __init__(self, nodes):
        self.up = {node: (node, False) for node in nodes}
        self.size = dict.fromkeys(nodes, 1)
        self.joined = []

    def root(self, node):
        sign = False
        while self.up[node][0] is not node:
            node, step = self.up[node]
            sign ^= step
        return node, sign

    def join(self, one, other, differ):
        """Demands that two nodes' signs differ, or are the same; answers whether they can be so."""
        (one, first), (other, second) = self.root(one), self.root(other)
        if one is other:
            return first ^ second == differ
        if self.size[one] < self.size[other]:
            one, other = other, one
        self.up[other] = one, first ^ second ^ differ
        self.size[one] += self.size[other]
        self.joined.append((one, other))
        return True

    def back_to(self, count):
        """Takes back all but the first joins."""
        while len(self.joined) > count:
            one, other = self.joined.pop()
            self.up[other] = other, False
            self.size[one] -= self.size[other]


def edges_of(nodes):
    return [edge for node in nodes for edge in node.takes if isinstance(edge, Edge)]


def crossings(edges, last):
    """How many edges cross each gap between a level and the next."""
    steps = [0] * (last + 2)
    for edge in edges:
        steps[edge.source.level] += 1
        steps[edge.user.level] -= 1
    for level in range(last):
        steps[level + 1] += steps[level]
    return steps[:last]


def mend_signs(nodes, last):
    """Flips nodes, and answers the gaps in which a row has to be put: where an edge without a buffer would still
    invert. The gaps that most edges cross are tried first."""
    fixed = Node("fixed", None, 0)
    signs, edges = Signs([fixed, *nodes]), edges_of(nodes)
    for node in nodes:
        if node.kind in ("input", "end"):
            signs.join(fixed, node, False)
    tight = collections.defaultdict(list)
    for edge in edges:
        if edge.user.level - edge.source.level == 1:
            tight[edge.source.level].append(edge)
    crossed, opened = crossings(edges, last), []
    for gap in sorted(tight, key=lambda gap: -crossed[gap]):
        count = len(signs.joined)
        if not all(signs.join(edge.source, edge.user, edge.inverted) for edge in tight[gap]):
            signs.back_to(count)
            opened.append(gap)
    sets = collections.defaultdict(list)
    for node in (fixed, *nodes):
        root, sign = signs.root(node)
        sets[root].append((node, sign))
    for members in sets.values():
        held = [sign for node, sign in members if node is fixed]
        plain = held[0] if held else 2 * sum(sign for _, sign in members) > len(members)
        for node, sign in members:
            node.flipped = sign ^ plain
    return opened


def put_rows(nodes, gaps):
    """Puts a row into each of the gaps."""
    raised, more = {}, 0
    for level in range(max(node.level for node in nodes) + 1):
        raised[level] = level + more
        more += level in gaps
    for node in nodes:
        node.level = raised[node.level]


def tree_of(node):
    """A majority and the splitters that hang on it, each after those that it takes."""
    found = [node]
    for each in found:
        found += [edge.user for edge in each.users if edge.user.kind == "splitter"]
    return found


def flip_back(nodes):
    """Flips majorities with their splitters where, as low as they may stand then, they take fewer buffers."""
    for node in nodes:
        if node.kind != "majority":
            continue
        tree = tree_of(node)
        edges = {edge for each in tree for edge in (*each.users, *each.takes) if isinstance(edge, Edge)}
        before = [each.level for each in tree]
        length = sum(edge.user.level - edge.source.level for edge in edges)
        for each in tree:
            each.flipped = not each.flipped
        for each in tree:
            each.level = max(edge.source.level + 1 + edge.odd() for edge in each.takes if isinstance(edge, Edge))
        for each in reversed(tree[1:]):
            each.level += max(0, min(edge.room() for edge in each.users))
        better = sum(edge.user.level - edge.source.level for edge in edges) < length
        if not better or any(edge.room() < 0 for edge in edges):
            for each, level in zip(tree, before):
                each.flipped, each.level = not each.flipped, level


def tighten(nodes, ends):
    """Moves splitters up and majorities down while that takes fewer buffers, and takes out rows that no edge needs."""
    moved = True
    while moved:
        moved = False
        for node in reversed(nodes):
            if node.kind == "splitter" and (up := min(edge.room() for edge in node.users)) > 0:
                node.level += up
                moved = True
        for node in nodes:
            if node.kind == "majority" and (down := min(e.room() for e in node.takes if isinstance(e, Edge))) > 0:
                node.level -= down
                moved = True
        edges, last = edges_of(nodes), ends[0].level
        needed = crossings([edge for edge in edges if edge.room() == 0], last)
        crossed = crossings(edges, last)
        spare = [gap for gap in range(last) if not needed[gap] and last > 1]
        if spare:
            gap = max(spare, key=lambda gap: crossed[gap])
            for node in nodes:
                node.level -= node.level > gap
            moved = True


class KeptRows(CellRows):
    """The rows of the cells that a netlist has, mended."""

    def __init__(self, graph, most):
        wiring = Wiring(graph, most)
        nodes, ends = wiring.nodes, wiring.ends
        changed = settle(nodes, ends) or wiring.changed
        gaps = mend_signs(nodes, ends[0].level)
        put_rows(nodes, set(gaps))
        if changed or gaps:
            tighten(nodes, ends)
            flip_back(nodes)
            tighten(nodes, ends)
        super().__init__(graph, ends[0].level + 1)
        self.places = {name: place for place, name in enumerate(graph.source.definitions)}
        self.named = collections.Counter(name for _, takes, _ in graph.source.definitions.values() for name in takes)
        for node in sorted(nodes, key=lambda node: node.level):
            self.add_node(node)
        self.ends = [end.cell for end in ends]
        self.put_in_order()

    def add_node(self, node):
        """The cell of a node, with those on the edges that it takes."""
        takes = [self.add_edge(each) if isinstance(each, Edge) else (None, each ^ node.flipped) for each in node.takes]
        kind = "majority" if node.kind == "majority" else "buffer"
        name, own = (each and each + ".not" * node.flipped for each in (node.name, node.own))
        node.cell = self.add(node.level, kind, name, takes or [node.name], own)
        constants = [each for each in self.graph.source.definitions.get(node.name, (0, ()))[1]
                     if self.graph.operands[each][0] is None and self.named[each] == 1]
        for cell, each in zip((cell for cell in node.cell.takes if takes and not cell.takes), constants):
            cell.own = each + ".not" * node.flipped

    def add_edge(self, edge):
        """The cells on an edge, the lowest first; one inverts where the edge does. They have the names of those that
        were there, if they show what these showed. Answers the highest, or the cell that the edge comes from."""
        count, cell = edge.user.level - edge.source.level - 1, edge.source.cell
        inverts = [place for place, (_, inverted) in enumerate(edge.chain[:count]) if inverted]
        which = (inverts or [count - 1])[0] if edge.odd() else None
        said, shown = False, edge.source.flipped
        for place in range(count):
            name, inverted = edge.chain[place] if place < len(edge.chain) else (None, False)
            said, shown = said ^ inverted, shown ^ (place == which)
            own = None if name is None else name + ".not" * (said != shown)
            base = edge.source.name + ".not" * shown
            kind = "inverter" if place == which else "buffer"
            cell = self.add(edge.source.level + place + 1, kind, base, [cell], own)
        return cell

    def order_row(self, row):
        """Cells that were there keep their order, where all cells of the row were."""
        places = [self.places.get((cell.own or "").removesuffix(".not")) for cell in row]
        if None in places:
            super().order_row(row)
        else:
            row[:] = [cell for _, _, cell in sorted(zip(places, range(len(row)), row))]
