"""A few lists with everything in them, for the tests of the driver itself: python3 -m boundary.sample > FILE"""

from . import lists

SEEDS = range(0, 60, 2)

for seed in SEEDS:
    print(*lists.lines_of(f"seeds {seed} and {seed + 1}", lists.pair(seed), lists.letters(seed)), sep="\n")
