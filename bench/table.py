"""What the guard costs, from the counts and times of bench/run: one table, the bars, and the curves as plots.

    python3 table.py FOLDER PLOTS     FOLDER has callgrind's dumps (archive.*, reader.*, plain.*, plain_hash.*,
                                      least.*), `times` and `memory`
"""

import math
import sys
from pathlib import Path

# bars, on the time
MEAN, MOST, HASHING, STACK = 1.10, 1.30, 1.05, 16_384
SHUFFLED = 1.5  # a listing in no order, in instructions of the same in order
ZERO_TEST, REST_OF_A_MAP = 1.10, 2500  # of plain C's instructions; instructions
UNITS = 16  # of the longest map
# loads of 256 nodes, in instructions of their own hashing and of what the longest save takes beside its hashing
LOADS = {
    "load, 44,776 bytes": 1.15, "load, 127 in a chain": 1.15, "load, 127 deepest first": 1.15,
    "load, names alike": 1.30,
}
HASH = "digest::sha256"  # in the archive

# Rows that miss a bar, and why.
EXPLAINED = {
    "write 1,024, aligned": (
        "not in every run: 1.02, 1.02, 1.02 and 1.07 in four of one build, at 1.02 of the instructions; the"
        " cause was not found"
    ),
    "readdir, 255 children": (
        "1.36 to 1.47 in eight runs of five builds, 1.14 in one of a build before, at 1.03 to 1.06 of the instructions;"
        " the cause was not found"
    ),
    "rename a directory of 253": (
        "15,878 of 16,685 instructions are in the call's entry, into which the climbs are compiled: some 9,300 of them"
        " for the place of every node's parent, as where 22 ends it, the rest for the climb of all; plain C's were not"
        " taken apart"
    ),
    "refused 22, under itself": (
        "1.31 in one run, at 1.24 of the instructions: 9,339 of 15,697 are the parents of all nodes and one climb; plain"
        " C's were not taken apart"
    ),
    "save, 23 bytes": (
        "not in every run: 1.15, 1.04 and 1.10 in three of one build, at 1.01 of the instructions; the cause"
        " was not found"
    ),
    "load, 23 bytes": (
        "not in every run: 1.03, 1.03 and 1.09 in three of one build, at 1.01 of the instructions; the cause"
        " was not found"
    ),
    "refused 22, a path's form": (
        "of 248 instructions the entry with the call read takes 123, the family 38, the path's form 87; in plain C the"
        " entry takes 42, the path 108: most of the difference is in the entry, and what it is there was not found"
    ),
    "grow, inside the last page": (
        "94 instructions more than plain C, not taken apart; by the source 34 numbers of the header are set as the call"
        " begins and as it ends, where plain C ends by setting one"
    ),
    "grow by 32 pages": (
        "2,573 instructions more: some 1,930 stay where no row moves (2,585 beside 653 in a build before), pages being"
        " summed over the nodes for the room and for the rows; the rest is that rows move 16 bytes at a time"
    ),
    "grow by 64 pages, two nodes": (
        "1.34, 1.41 and 1.34 in three runs, 1.20 in one of a build before, at 0.82 to 0.89 of the instructions; the"
        " cause was not found"
    ),
    "unmap, 15 maps": (
        "284 instructions more: 140 are the search, which the reply makes again where plain C keeps the place; the"
        " other 144 are there with one map too (265 beside 121), most of them in the reply, and were not taken apart"
    ),
    "grow by 32 pages, disk full": (
        "1,164 of the 1,322 instructions are the call, 111 in plain C, which keeps the number of pages where the call"
        " sums it over the nodes; the reply takes 158, 55 in plain C, and was not taken apart"
    ),
    "refused 30, read-only": (
        "1.19 and 1.38 in two runs of one build, at 1.40 of the instructions: 269 beside 192 in plain C, which were not"
        " taken apart"
    ),
    "stat, eight deep, 256 nodes": (
        "1.63 in two runs of one build, 1.24 in one of a build before, at 1.15 of the instructions; the cause was not"
        " found"
    ),
    "geometric mean": (
        "1.16 and 1.17 in two runs of one build, 1.06 in one of a build before, at 1.12 and 1.07 of the instructions; a"
        " growth that meets a full disk is new, and has 7.96"
    ),
    "truncate, on an edge": (
        "the digests behind the file are moved 16 bytes at a time, where the C library's memmove has vectors"
        " of 32; and pages are summed over the nodes, where plain C keeps in each node where its digests begin"
    ),
}


def read_dump(path):
    """A dump's name, its instructions, and those inside the hash."""
    name, total, hashed, called = None, 0, 0, None
    for line in path.read_text().splitlines():
        if line.startswith("desc: Trigger: Client Request: "):
            name = line.removeprefix("desc: Trigger: Client Request: ")
        elif line.startswith("totals:"):
            total = int(line.split()[1])
        elif line.startswith("cfn="):
            called = line[4:]
        elif called is not None and line[:1].isdigit():
            if called.startswith(HASH):
                hashed += int(line.split()[1])
            called = None
    return name, total, hashed


def dumps(folder, side):
    """By name, in the order of the run: instructions and those inside the hash."""
    files = sorted(folder.glob(f"{side}.*"), key=lambda path: int(path.suffix[1:]))
    return {name: counts for name, *counts in map(read_dump, files) if name not in (None, "before")}


def fields(path):
    return [line.split("\t") for line in path.read_text().splitlines()]


def bar_of(share):
    """The bar of a row: nearer where most of it is hashing, beside the same hash code."""
    return HASHING if share >= 0.5 else MOST


def geometric_mean(values):
    return math.exp(sum(map(math.log, values)) / len(values))


HEAD = (
    f"{'':29} {'instructions':>12} {'plain C':>9} {'ratio':>6} {'C hash':>6} {'time':>6} {'bar':>5} {'hashing':>7}"
    f" {'least':>6}"
)


def print_table(archive, plain, plain_hash, least, times):
    """The table; the names of rows above their bar."""
    over, ratios = [], {}
    print(HEAD)
    for name in times:
        sides = archive, plain, plain_hash, least
        (ours, hashed), (theirs, _), (c_hash, _), (fewest, _) = (side[name] for side in sides)
        row, bar = (ours / theirs, ours / c_hash, times[name]), bar_of(hashed / ours)
        ratios[name] = row
        mark = " *" if times[name] > bar else ""
        over += [name] if mark else []
        figures = " ".join(f"{ratio:6.2f}" for ratio in row)
        print(f"{name:29} {ours:12,} {theirs:9,} {figures} {bar:5.2f} {hashed / ours:7.0%} {ours / fewest:6.2f}{mark}")
    means = print_means("geometric mean", ratios.values())
    if over:
        print_means("of the rows within their bars", (row for name, row in ratios.items() if name not in over))
    return over + ["geometric mean"] * (means[2] > MEAN)


def print_means(text, ratios):
    means = [geometric_mean(column) for column in zip(*ratios)]
    print(f"{text:29} {'':12} {'':9} {' '.join(f'{mean:6.2f}' for mean in means)} {MEAN:5.2f}")
    return means


def print_shuffled(archive):
    ratio = archive["readdir, 255 shuffled"][0] / archive["readdir, 255 children"][0]
    print(f"a listing in no order: {ratio:.2f} of the instructions of one in order, at most {SHUFFLED:.2f}")
    return ["a listing in no order"] * (ratio > SHUFFLED)


def zero_test(side):
    """The instructions that the zero test of one unit takes: what the longest map takes more than the shortest."""
    return (side["map 65,536"][0] - side["map 4,096"][0]) / (UNITS - 1)


def print_maps(archive, plain):
    ratio = zero_test(archive) / zero_test(plain)
    rest, among = (archive[name][0] - zero_test(archive) for name in ("map 4,096", "map 4,096, 15 maps"))
    print(f"the zero test of a map: {ratio:.2f} of plain C's instructions, at most {ZERO_TEST:.2f};", end=" ")
    print(f"the rest of a map {rest:,.0f} instructions, with 15 maps {among:,.0f}, under {REST_OF_A_MAP:,}")
    over = ["the zero test of a map"] * (ratio > ZERO_TEST)
    return over + ["the rest of a map"] * (max(rest, among) >= REST_OF_A_MAP)


def print_loads(archive):
    saved, hashed = archive["save, 44,776 bytes"]
    ratios = {name: archive[name][0] / (archive[name][1] + saved - hashed) for name in LOADS}
    print("loads, of the instructions of their hashing and of the longest save's beside its hashing:", end=" ")
    print("; ".join(f"{name} {ratio:.2f}, at most {LOADS[name]:.2f}" for name, ratio in ratios.items()))
    return [f"instructions of {name}" for name, ratio in ratios.items() if ratio > LOADS[name]]


def print_memory(rows):
    """The guard's bytes and the deepest stack; the entries above the bar."""
    sizes = {(side, what): int(size) for side, what, size in rows}
    entries = [what for side, what in sizes if side == "archive" and what != "guard"]
    print(f"bytes of a guard: {sizes['archive', 'guard']:,}; in plain C {sizes['plain', 'guard']:,}")
    stacks = (f"{entry} {sizes['archive', entry]:,} ({sizes['plain', entry]:,})" for entry in entries)
    print(f"deepest stack below an entry (in plain C), at most {STACK:,}: {', '.join(stacks)}")
    return [f"stack of {entry}" for entry in entries if sizes["archive", entry] > STACK]


WIDTH, HEIGHT, LEFT, BOTTOM, TOP = 480, 260, 70, 36, 28
CURVES = {
    "depth": "stat: depth of the path, among 128 nodes",
    "nodes": "stat of the last node: nodes in the table",
    "pages": "read of a whole file: pages",
    "children": "readdir: children",
}


def plot(title, series):
    """Lines over one x each, as SVG: the archive's solid, plain C's dashed."""
    most_x = max(x for points in series.values() for x, _ in points)
    most_y = max(y for points in series.values() for _, y in points)
    across, up = (WIDTH - LEFT - 20) / most_x, (HEIGHT - BOTTOM - TOP) / most_y
    out = [
        f'<svg xmlns="http://www.w3.org/2000/svg" viewBox="0 0 {WIDTH} {HEIGHT}" font-family="sans-serif"'
        ' font-size="11">',
        f'<rect width="{WIDTH}" height="{HEIGHT}" fill="white"/>',
        f'<text x="{LEFT}" y="16">{title}; instructions, archive (solid) and plain C (dashed)</text>',
        f'<path d="M{LEFT} {TOP}V{HEIGHT - BOTTOM}H{WIDTH - 20}" fill="none" stroke="black"/>',
    ]
    for part in (0, 0.5, 1):
        y, x = HEIGHT - BOTTOM - part * most_y * up, LEFT + part * most_x * across
        out.append(f'<text x="{LEFT - 6}" y="{y + 4:.0f}" text-anchor="end">{part * most_y:,.0f}</text>')
        out.append(f'<text x="{x:.0f}" y="{HEIGHT - BOTTOM + 16}" text-anchor="middle">{part * most_x:,.0f}</text>')
    for dashes, points in zip(("none", "5 4"), series.values()):
        places = " ".join(f"{LEFT + x * across:.1f},{HEIGHT - BOTTOM - y * up:.1f}" for x, y in points)
        out.append(f'<polyline points="{places}" fill="none" stroke="black" stroke-dasharray="{dashes}"/>')
    return "\n".join([*out, "</svg>", ""])


def points(counts, curve):
    return [(int(name.split()[2]), total) for name, (total, _) in counts.items() if name.startswith(f"curve {curve} ")]


def print_curves(archive, plain, folder):
    """The first and last point of each curve; each as a plot."""
    folder.mkdir(exist_ok=True)
    print("how it grows, instructions of the archive (plain C):")
    for curve, title in CURVES.items():
        series = {"archive": points(archive, curve), "plain": points(plain, curve)}
        (folder / f"{curve}.svg").write_text(plot(title, series))
        ends = (f"{x} {ours:,} ({theirs:,})" for (x, ours), (_, theirs) in zip(*series.values()))
        first, *_, last = ends
        print(f"  {title}: {first} to {last}")


def print_reasons(over):
    """Each reason once, behind the rows that it is for."""
    reasons = {}
    for name in over:
        reasons.setdefault(EXPLAINED.get(name, "above the bar, and nothing here says why"), []).append(name)
    for reason, names in reasons.items():
        print(f"* {'; '.join(names)}: {reason}")


def main():
    folder, plots = map(Path, sys.argv[1:3])
    sides = "archive", "reader", "plain", "plain_hash", "least"
    archive, reader, plain, plain_hash, least = (dumps(folder, side) for side in sides)
    archive |= {name: counts for name, counts in reader.items() if "read-only" in name}
    times = {name: float(ratio) for name, ratio in fields(folder / "times")}
    over = print_table(archive, plain, plain_hash, least, times)
    over += print_shuffled(archive)
    over += print_maps(archive, plain)
    over += print_loads(archive)
    over += print_memory(fields(folder / "memory"))
    print_curves(archive, plain, plots)
    print_reasons(over)
    sys.exit(any(name not in EXPLAINED for name in over))


if __name__ == "__main__":
    main()
