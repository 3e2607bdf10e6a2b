#!/usr/bin/env python3
"""Writes fabric.sefl: a data-centre fabric of 40 switches in three layers.

Four pods of four edge and four aggregation switches, and eight core switches. Pod P, edge switch E has 10.P.E.0/24. Switches spread
what goes up by the hash of its flow, which stands here as a number of three bits that goes with the packet: an edge switch over its
pod's aggregation switches by the two low bits, an aggregation switch over its two core switches by the third. What comes down goes by
the destination alone.
"""

PODS, EDGES, AGGS, CORES = 4, 4, 4, 8


def prefix(pod, edge=None):
    low = (10 << 24) + (pod << 16) + ((edge or 0) << 8)
    return f"{low}..{low + (65535 if edge is None else 255)}"


def routes(tests, otherwise):
    lines = [f"    if head L3+128:32 in {{{ranges}}} {{ forward {port}; }} else {{ }}" for ranges, port in tests]
    return "\n".join(lines + [otherwise])


def spread(bit, ports, depth=0):
    """Code that sends by the bits of the source port that begin at this one."""
    if len(ports) == 1:
        return "  " * depth + f"    forward {ports[0]};"
    half = len(ports) // 2
    ones = ", ".join(f"{low}..{low + (1 << bit) - 1}" for low in range(1 << bit, 8, 2 << bit))
    return "\n".join([
        "  " * depth + f"    if local hash:16 in {{{ones}}} {{",
        spread(bit - 1, ports[half:], depth + 1),
        "  " * depth + "    } else {",
        spread(bit - 1, ports[:half], depth + 1),
        "  " * depth + "    }",
    ])


def main():
    out = ["// Made by make_fabric.py: a data-centre fabric of 40 switches in three layers.", "symnet 2;", ""]
    links = []
    for pod in range(PODS):
        for edge in range(EDGES):
            # input 0 is the hosts', inputs 1 to 4 come from the aggregation switches; output 0 is the hosts'
            up = spread(1, [1, 2, 3, 4])
            out += [f"node edge_{pod}_{edge} 5 -> 5 {{", "  in 0 {",
                    f"    if head L3+128:32 in {{{prefix(pod, edge)}}} {{ forward 0; }} else {{ }}",
                    "    allocate local hash:16;", "    set local hash:16 = global flow:16;",
                    up, "  }"]
            out += [f"  in {port} {{ forward 0; }}" for port in range(1, 5)] + ["}"]
            links += [f"link edge_{pod}_{edge}.{agg + 1} -> agg_{pod}_{agg}.{edge};" for agg in range(AGGS)]
            links += [f"link edge_{pod}_{edge}.0 -> hosts_{pod}.0;"]
        for agg in range(AGGS):
            down = [(prefix(pod, edge), edge) for edge in range(EDGES)]
            ways = "\n".join(["    allocate local hash:16;", "    set local hash:16 = global flow:16;", "    if local hash:16 in {4..7} { forward 5; } else { forward 4; }"])
            out += [f"node agg_{pod}_{agg} 6 -> 6 {{"]
            for port in range(EDGES):
                out += [f"  in {port} {{", routes(down, ways), "  }"]
            for port in (4, 5):
                out += [f"  in {port} {{", routes(down, '    fail "no route";'), "  }"]
            out += ["}"]
            links += [f"link agg_{pod}_{agg}.{edge} -> edge_{pod}_{edge}.{agg + 1};" for edge in range(EDGES)]
            links += [f"link agg_{pod}_{agg}.{4 + way} -> core_{2 * agg + way}.{pod};" for way in range(2)]
    for core in range(CORES):
        out += [f"node core_{core} {PODS} -> {PODS} {{"]
        for port in range(PODS):
            out += [f"  in {port} {{", routes([(prefix(pod), pod) for pod in range(PODS)], '    fail "no route";'), "  }"]
        out += ["}"]
        links += [f"link core_{core}.{pod} -> agg_{pod}_{core // 2}.{4 + core % 2};" for pod in range(PODS)]
    for pod in range(PODS):
        out += [f"node hosts_{pod} 1 -> 0 {{", "}"]
    out += [*links, "",
            "inject edge_0_0.0 {", "  tag L3 = 112;", "  tag L4 = 272;", "  field head L3+96:32 = 167772165;", "  field head L3+128:32;",
            "  // the part of a flow's hash by which the switches spread", "  field global flow:16;", "  where global flow:16 < 8;", "}", "",
            "// does each other pod get what is sent to it, and no other?"]
    for pod in range(PODS):
        out += [f"ask reach in hosts_{pod}.0;"]
        low = (10 << 24) + (pod << 16)
        out += [f"ask reach in hosts_{pod}.0 with head L3+128:32 < {low} or head L3+128:32 > {low + 65535};"]
    with open("fabric.sefl", "w", encoding="ascii") as file:
        file.write("\n".join(out) + "\n")


if __name__ == "__main__":
    main()
