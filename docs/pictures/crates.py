"""crates.py < crates.txt: the crates by floors, as a graph for dot.

A crate stands one floor above the highest that it rests on. Only edges that no longer way gives are drawn, and the kit's own
libraries are left out.
"""
import sys


def read(lines):
    """The crates with what each rests on, in the order of the file. A static library has that word behind its name."""
    named = [line.split(":") for line in lines if line.strip() and not line.startswith("#")]
    crates = {name.split()[0]: rests.split() for name, rests in named}
    return {name: [low for low in rests if low in crates] for name, rests in crates.items()}


def below(crates, name):
    """All that a crate rests on, directly or through others."""
    found = set()
    for low in crates[name]:
        found |= {low} | below(crates, low)
    return found


def floors(crates):
    """The floor of each crate; the file names a crate after what it rests on."""
    at = {}
    for name, rests in crates.items():
        at[name] = 1 + max((at[low] for low in rests), default=-1)
    return at


def direct(crates, name):
    """What a crate rests on that nothing else it rests on has below it."""
    rests = crates[name]
    return [low for low in rests if not any(low in below(crates, other) for other in rests)]


def main():
    crates = read(sys.stdin)
    at = floors(crates)
    print('digraph crates {\n  rankdir=BT; ranksep=0.45; nodesep=0.14; bgcolor="white"; splines=true;')
    print('  node [shape=box, style="rounded,filled", fillcolor="#eef3f8", color="#4a6a8a", fontname="Helvetica", fontsize=13,'
          ' height=0.32, margin="0.08,0.04"];\n  edge [color="#8a9bb0", arrowsize=0.55];')
    for floor in range(max(at.values()) + 1):
        print("  { rank=same; " + " ".join(f'"{name}";' for name in crates if at[name] == floor) + " }")
    for name in crates:
        for low in direct(crates, name):
            print(f'  "{low}" -> "{name}" [dir=back];')
    print("}")


main()
