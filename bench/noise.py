#!/usr/bin/env python3
"""noise.py RUN.json: names the rows of a run whose spread is above 10 %, and ends with 3 where there are any."""
import sys

from results import MOST_SPREAD, load, row_name, spread


def main():
    if len(sys.argv) != 2:
        sys.exit(__doc__)
    noisy = load(sys.argv[1]).noisy()
    for case, what, ns in noisy:
        print(f"{row_name(case, what)}: {min(ns):,.1f} to {max(ns):,.1f} ns, a spread of {spread(ns):.1%}")
    if noisy:
        print(f"rows with a spread above {MOST_SPREAD:.0%}: {len(noisy)}")
        sys.exit(3)


if __name__ == "__main__":
    main()
