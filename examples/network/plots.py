"""The plots of a network, as one page of SVG: capacities, channels of nodes, base fees and rates.

    python3 examples/network --summary network.txt --plot network.svg

Fees are those of usable directions, as in the table. It needs matplotlib (on Debian python3-matplotlib); the table
doesn't. The same network gives the same page, where the version of matplotlib is the same.
"""

import math

import top  # leads to gossip

from gossip.messages import Fault

MISSING = "plots need matplotlib, which this Python doesn't have (on Debian it is python3-matplotlib)"
SIZE = 11, 8  # inches
COLOR = "#0b62a4"
STEPS = 200  # of a curve of shares
BINS_A_DECADE = 6
STYLE = {"svg.fonttype": "none", "svg.hashsalt": "lgm", "font.size": 10, "axes.spines.top": False,
         "axes.spines.right": False, "axes.grid": True, "grid.color": "#dddddd", "axes.axisbelow": True}


def library():
    """The part of matplotlib that draws, without a screen."""
    try:
        import matplotlib
    except ImportError as fault:
        raise Fault(MISSING) from fault
    matplotlib.use("svg")
    matplotlib.rcParams.update(STYLE)
    from matplotlib import pyplot
    return pyplot


def shares(values):
    """The points of a curve: of each value the percentage of all that are at most as great."""
    ordered = sorted(values)
    places = [step * (len(ordered) - 1) // STEPS for step in range(STEPS + 1)]
    return [ordered[place] for place in places], [100 * (place + 1) / len(ordered) for place in places]


def decades(values):
    """Ends of bins, the same number for each power of ten, around values above 0."""
    first, last = math.floor(math.log10(min(values))), math.ceil(math.log10(max(values) + 1))
    return [10 ** (first + step / BINS_A_DECADE) for step in range((last - first) * BINS_A_DECADE + 1)]


def draw_capacities(axes, capacities):
    """How many channels have which capacity."""
    values = [value for value in capacities if value > 0]
    if values:
        axes.hist(values, bins=decades(values), color=COLOR, edgecolor="white", linewidth=0.5)
        axes.set_xscale("log")
    axes.set(title="Capacity", xlabel="satoshi", ylabel="channels")


def draw_degrees(axes, degrees):
    """How many nodes have at least so many channels."""
    counts, nodes = [], []
    ordered = sorted(degrees)
    for place, degree in enumerate(ordered):
        if place == 0 or degree != ordered[place - 1]:
            counts.append(degree)
            nodes.append(len(ordered) - place)
    if counts:
        axes.loglog(counts, nodes, color=COLOR)
    axes.set(title="Channels of a node", xlabel="channels", ylabel="nodes with at least as many")


def draw_fees(axes, title, unit, values):
    """Which share of usable directions charges at most so much. The axis is even below 1, and logarithmic above."""
    if values:
        found, percent = shares(values)
        axes.step(found, percent, where="post", color=COLOR)
        axes.set_xscale("symlog", linthresh=1)
        axes.set_xlim(left=0)
    axes.set(title=title, xlabel=unit, ylabel="% of usable directions", ylim=(0, 102))


def draw(path, network, title):
    """Writes the page."""
    pyplot = library()
    usable = [update for update, _, why in network.directions() if not why]
    page, axes = pyplot.subplots(2, 2, figsize=SIZE)
    draw_capacities(axes[0][0], [capacity for _, capacity in network.channels.values()])
    draw_degrees(axes[0][1], list(network.degrees.values()))
    draw_fees(axes[1][0], "Base fee", "msat", [update.fee_base_msat for update in usable])
    draw_fees(axes[1][1], "Rate", "millionths of the amount", [update.fee_proportional_millionths for update in usable])
    page.suptitle(f"{title}{len(network.channels):,} channels, {len(network.degrees):,} nodes, "
                  f"{len(usable):,} of {2 * len(network.channels):,} directions usable")
    page.tight_layout(rect=(0, 0, 1, 0.98))
    page.savefig(path, format="svg", metadata={"Date": None, "Creator": None})
    pyplot.close(page)
