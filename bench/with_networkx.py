"""Times networkx.inverse_line_graph on the line graphs of a path and a random root of 64 edges."""
import random
import time

import networkx as nx


def timed(name, root):
    line = nx.line_graph(root)
    best = min(once(line) for _ in range(3))
    print(f"{name:<28} {line.number_of_nodes():>3} {best * 1e9:>10.0f} (networkx)")


def once(line):
    start = time.perf_counter()
    nx.inverse_line_graph(line)
    return time.perf_counter() - start


random.seed(1)
timed("path", nx.path_graph(65))
timed("star", nx.star_graph(64))
for vertices in (20, 40):
    root = nx.gnm_random_graph(vertices, 64, seed=1)
    largest = root.subgraph(max(nx.connected_components(root), key=len)).copy()
    timed(f"random root of {vertices} vertices", largest)
