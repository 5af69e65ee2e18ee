"""Makes the dielines of flat.sh in a temporary folder, and times both programs on them."""

import json
import os
import subprocess
import sys
import tempfile
import time

LIMIT = 1 << 20
RUNS = 15


def filled(dieline):
    """The dieline's text with further keys, up to the greatest length of a file."""
    text = json.dumps(dieline, separators=(",", ":"))
    frame = {"title": "carton", "folded": [True, False, None], "points": [[0.5, -1, 2e3]] * 8}
    piece = json.dumps(frame, separators=(",", ":"))
    pieces = []
    length = len(text)
    while True:
        member = ',"extra:%d":%s' % (len(pieces), piece)
        if length + len(member) > LIMIT:
            break
        pieces.append(member)
        length += len(member)
    text = text[:-1] + "".join(pieces) + "}"
    return text + " " * (LIMIT - len(text))


def flap():
    return {
        "vertices_coords": [[0, 0], [100, 0], [200, 0], [0, 100], [100, 100], [200, 100]],
        "edges_vertices": [[0, 1], [1, 2], [2, 5], [5, 4], [4, 3], [3, 0], [1, 4]],
        "edges_assignment": ["B", "B", "B", "B", "B", "B", "V"],
        "faces_vertices": [[0, 1, 4, 3], [1, 2, 5, 4]],
    }


def most():
    """1024 vertices on a lattice, 2048 edges, and 24 squares that are one panel wide apart."""
    vertices = [[200 * (i % 32), 200 * (i // 32)] for i in range(1024)]
    edges = [[i, i + 1] for i in range(1023)] + [[i, i + 32] for i in range(992)]
    edges += [[i, i + 2] for i in range(2048 - len(edges))]
    faces = []
    for k in range(24):
        corner = 32 * 2 * (k // 12) + 2 * (k % 12)
        faces.append([corner, corner + 1, corner + 33, corner + 32])
    return {
        "vertices_coords": vertices,
        "edges_vertices": edges,
        "edges_assignment": ["B"] * 2048,
        "faces_vertices": faces,
    }


def round_faces():
    """24 faces of 32 vertices each, with no straight vertex."""
    quarter = [(1, 0), (4, 1), (3, 1), (2, 1), (1, 1), (1, 2), (1, 3), (1, 4)]
    steps = []
    for _ in range(4):
        steps += quarter
        quarter = [(-y, x) for x, y in quarter]
    vertices, edges, faces = [], [], []
    for k in range(24):
        x, y = 700 * (k % 6), 700 * (k // 6)
        first = len(vertices)
        for i, (dx, dy) in enumerate(steps):
            vertices.append([x, y])
            edges.append([first + i, first + (i + 1) % 32])
            x, y = x + 8 * dx, y + 8 * dy
        faces.append(list(range(first, first + 32)))
    return {
        "vertices_coords": vertices,
        "edges_vertices": edges,
        "edges_assignment": ["B"] * len(edges),
        "faces_vertices": faces,
    }


def best(call):
    """The least time of some runs, in milliseconds."""
    times = []
    for _ in range(RUNS):
        begun = time.perf_counter()
        call()
        times.append(time.perf_counter() - begun)
    return 1000 * min(times)


def load(name):
    with open(name) as file:
        json.load(file)


def peak(words):
    """The greatest memory of a process, in MB."""
    before = subprocess.Popen(words, stdout=subprocess.DEVNULL)
    _, _, usage = os.wait4(before.pid, 0)
    return usage.ru_maxrss / 1024


def main():
    program = sys.argv[1]
    with tempfile.TemporaryDirectory() as folder:
        for title, dieline in (("keys that are passed over", flap()), ("1024 vertices and 2048 edges", most())):
            name = os.path.join(folder, "dieline.fold")
            with open(name, "w") as file:
                file.write(filled(dieline))
            words = [program, "flat", name, "4"]
            answer = subprocess.run(words, capture_output=True, text=True)
            ours = best(lambda: subprocess.run(words, stdout=subprocess.DEVNULL))
            theirs = best(lambda: load(name))
            print("%s: %s" % (title, answer.stdout.strip()))
            print("  carton flat %.1f ms, json.load %.1f ms, ratio %.2f" % (ours, theirs, ours / theirs))
            print("  carton's peak memory %.1f MB" % peak(words))
        name = os.path.join(folder, "round.fold")
        with open(name, "w") as file:
            json.dump(round_faces(), file)
        words = [program, "flat", name, "4"]
        answer = subprocess.run(words, capture_output=True, text=True)
        ours = best(lambda: subprocess.run(words, stdout=subprocess.DEVNULL))
        print("24 faces of 32 vertices: %s" % answer.stdout.strip())
        print("  carton flat %.1f ms" % ours)


main()
