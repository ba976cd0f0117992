#!/usr/bin/env python3
"""Draw the pictures in the documents: `make pictures`, or one by itself.

    pictures.py study OUT.png [--program PATH]      examples/study: land cover, hectares by class,
                                                    patches of woodland
    pictures.py islands OUT.png [--program PATH]    examples/islands: the countries, and the islands
                                                    as r.clump numbers them
    pictures.py examples FOLDER [--program PATH]    FOLDER/NAME/picture.png of the examples over
                                                    the maps of examples/study
    pictures.py speed OUT.png                       the figures of bench/RESULTS.md as bars

Needs matplotlib and numpy (Debian: python3-matplotlib).
"""
import argparse
import os
import subprocess

import matplotlib

matplotlib.use("Agg")
import matplotlib.pyplot as plt  # after the back end is chosen
import numpy as np
from matplotlib.colors import ListedColormap

import documents
import figures

ROOT = documents.ROOT
ISLANDS = f"{ROOT}/examples/islands"
SQUARE_KILOMETRES_OF_A_CELL = 256
STUDY = f"{ROOT}/examples/study"
HECTARES_OF_A_CELL = 0.0625
CLASSES = {
    11: ("town", "#c83c32"),
    12: ("industry", "#823c6e"),
    21: ("arable land", "#ebdc96"),
    23: ("pasture", "#bed778"),
    31: ("broad-leaved wood", "#46963c"),
    32: ("conifers", "#1e643c"),
    51: ("water", "#4682c8"),
}
PATCHES = "r.reclass input=landcover output=wood\n31 thru 39 = 1\nend\nr.clump -d input=wood output=patches\n"
SEA = (0.87, 0.93, 0.97)
LABELLED = 100  # minimum cells of a country with a label
# Moves names that would overlap, in rows and columns from the median of the cells.
MOVED = {"Viet Nam": (-8, 18), "Cambodia": (3, -3), "Malaysia": (10, -22), "Thailand": (-2, -4)}
SHORT = {"Lao People's Democratic Republic": "Laos"}
PLATE = {"fc": "white", "alpha": 0.65, "lw": 0, "pad": 1}


def grid(text):
    """Return the cells of a grid text, with 0 for null."""
    lines = text.splitlines()
    header = dict(line.split(":") for line in lines if ":" in line)
    cells = " ".join(line for line in lines if ":" not in line).replace("*", "0").split()
    return np.array(cells, int).reshape(int(header["rows"]), int(header["cols"]))


def rcell(program, script, folder=ISLANDS, grid_word="country=archipelago.txt"):
    """Run a script and return its output. A script of several lines is passed through standard
    input."""
    words = [program, "/dev/stdin" if "\n" in script else script, grid_word]
    return subprocess.run(
        words, cwd=folder, check=True, capture_output=True, text=True, input=script
    ).stdout


def label(axes, cells, text, size=7):
    """Write a text at the median of some cells, or moved if it is a name that would overlap
    another."""
    row, column = (np.median(places) for places in np.nonzero(cells))
    down, right = MOVED.get(text, (0, 0))
    axes.text(column + right, row + down, text, ha="center", va="center", fontsize=size, bbox=PLATE)


def draw_countries(axes, country, names):
    colours = [SEA, *[plt.get_cmap("tab20")(number)[:3] for number in range(country.max())]]
    axes.imshow(
        country,
        cmap=ListedColormap(colours),
        vmin=-0.5,
        vmax=country.max() + 0.5,
        interpolation="nearest",
    )
    axes.set_title("Countries, in cells of 16 km", fontsize=12)
    for code, name in names.items():
        if (country == code).sum() > LABELLED:
            label(axes, country == code, SHORT.get(name, name), 8)


def draw_islands(axes, island, names):
    random = np.random.default_rng(3)
    colours = np.vstack([[SEA], 0.25 + 0.65 * random.random((island.max(), 3))])
    axes.imshow(colours[island], interpolation="nearest")
    axes.set_title(f"{island.max()} connected areas of land, with their sizes", fontsize=12)
    for number, name in names.items():
        area = (island == number).sum() * SQUARE_KILOMETRES_OF_A_CELL
        label(axes, island == number, f"{name}\n{area:,} km²", 8)


def islands(output, program):
    with open(f"{ISLANDS}/archipelago.txt", encoding="ascii") as file:
        country = grid(file.read())
    with open(f"{ISLANDS}/shares", encoding="utf-8") as file:
        rules = [line.split(" ", 3) for line in file if " = " in line and line[0].isdigit()]
    with open(f"{ISLANDS}/atlas", encoding="utf-8") as file:
        atlas = [line.split("\t") for line in file]
    figure, (left, right) = plt.subplots(1, 2, figsize=(14, 5.1), dpi=100)
    draw_countries(left, country, {int(rule[0]): rule[3].strip() for rule in rules})
    draw_islands(
        right, grid(rcell(program, "islands")), {int(number): name for number, name, *_ in atlas}
    )
    for axes in (left, right):
        axes.set_xticks([])
        axes.set_yticks([])
    figure.tight_layout()
    figure.savefig(output)


def without_ticks(axes, title):
    axes.set_title(title, fontsize=11)
    axes.set_xticks([])
    axes.set_yticks([])


def draw_hectares(axes, table):
    """Draw the hectares of each class as bars, with the first class at the top."""
    hectares = [int(cells) * HECTARES_OF_A_CELL for _, cells in table]
    bars = axes.barh(
        [CLASSES[int(code)][0] for code, _ in table],
        hectares,
        color=[CLASSES[int(code)][1] for code, _ in table],
    )
    axes.bar_label(bars, labels=[f"{area:g} ha" for area in hectares], padding=3, fontsize=9)
    axes.invert_yaxis()
    axes.set_xlim(0, 1.25 * max(hectares))
    axes.set_title("rcell-gis composition: hectares of each class", fontsize=11)
    axes.set_xticks([])
    for side in ("top", "right", "bottom"):
        axes.spines[side].set_visible(False)


def draw_patches(axes, patches, sizes):
    colours = ["white", "#e6781e", "#7846a0", "#28a0a0", "#c83c5a"]
    axes.imshow(
        patches,
        cmap=ListedColormap(colours),
        vmin=0,
        vmax=len(colours) - 1,
        interpolation="nearest",
    )
    without_ticks(axes, "r.clump -d: four patches of woodland")
    for number, cells in sizes:
        label(axes, patches == int(number), f"{int(cells) * HECTARES_OF_A_CELL:g} ha")


def study(output, program):
    """Draw the land cover of the study, the hectares of its classes, and its patches of
    woodland."""

    def answer(script):
        return rcell(program, script, STUDY, "landcover=landcover.txt")

    def table(script):
        return [line.split() for line in answer(script).splitlines()]

    cover = grid(answer("r.out.ascii input=landcover\n"))
    figure, (left, middle, right) = plt.subplots(
        1, 3, figsize=(13, 3.2), dpi=100, width_ratios=(1.1, 0.9, 1.1)
    )
    draw_cover(left, cover, "landcover.tif: 25 m cells")
    draw_hectares(middle, table("r.stats -c -n input=landcover\n"))
    draw_patches(
        right,
        grid(answer(f"{PATCHES}r.out.ascii input=patches\n")),
        table(f"{PATCHES}r.stats -c -n input=patches\n"),
    )
    figure.tight_layout()
    figure.savefig(output)


# What the picture of each example shows of the land cover: its title, and a script that makes the
# map x.
SMOOTH = (
    "r.mapcalc m = nmode(g[-1,-1],g[-1,0],g[-1,1],g[0,-1],g,g[0,1],g[1,-1],g[1,0],g[1,1])\n"
    "r.mapcalc x = if(isnull(g), null(), m)\n"
)
GROWN = "if(g == 21 && row() > 8 && col() > 11, 11, if(g == 23 && col() < 8, 32, g))"
NEAR = "nmax(w[-1,-1],w[-1,0],w[-1,1],w[0,-1],w[0,1],w[1,-1],w[1,0],w[1,1])"
EXAMPLES = {
    "change": (
        "Cells that changed, in their later class",
        f"r.mapcalc later = {GROWN}\nr.mapcalc x = if(later != g, later, null())\n",
    ),
    "woodland": (
        "Woods of at least half a hectare",
        "r.reclass input=g output=wood\n31 thru 39 = 1\nend\nr.clump -d input=wood output=p\n"
        "r.mapcalc x = if(p == 1 || p == 4, g, null())\n",
    ),
    "stream": (
        "Water, and the cells next to it",
        f"r.mapcalc w = g == 51\nr.mapcalc n = {NEAR}\nr.mapcalc x = if(n == 1 || w == 1, g, null())\n",
    ),
    "majority": ("Most frequent class of 3 by 3 cells", SMOOTH),
    "protected": ("In the protection zones", "r.mapcalc x = if(isnull(zones), null(), g)\n"),
    "large-map": ("Two tiles", "r.mapcalc x = g\n"),
}


def draw_cover(axes, cover, title):
    colours = ["white", *(colour for _, colour in CLASSES.values())]
    codes = np.where(cover == 0, 0, np.searchsorted(list(CLASSES), cover) + 1)
    axes.imshow(
        codes, cmap=ListedColormap(colours), vmin=0, vmax=len(colours) - 1, interpolation="nearest"
    )
    without_ticks(axes, title)


def examples(folder, program):
    """Draw the land cover of the study next to the result of each example."""
    for name, (title, script) in EXAMPLES.items():
        words = [program, "/dev/stdin", "g=landcover.txt", "zones=zones.txt"]
        shown, whole = (
            grid(
                subprocess.run(
                    words,
                    cwd=STUDY,
                    check=True,
                    capture_output=True,
                    text=True,
                    input=f"{text}r.out.ascii input={of}\n",
                ).stdout
            )
            for text, of in ((script, "x"), ("", "g"))
        )
        figure, (left, right) = plt.subplots(1, 2, figsize=(9, 3), dpi=80)
        draw_cover(left, whole, "Land cover")
        draw_cover(right, shown, title)
        if name == "large-map":
            right.axhline(6.5, color="black", linewidth=3)
        figure.tight_layout()
        figure.savefig(f"{folder}/{name}/picture.png")
        plt.close(figure)


# The tasks in the chart: their titles, and their rows in bench/RESULTS.md.
CHARTED = (
    ("reading\npatchy land cover", "reading", "patchy land cover, 4 million cells"),
    ("r.stats -c\npatchy land cover", "r.stats -c", "patchy land cover, 4 million cells"),
    ("r.out.ascii\npatchy land cover", "r.out.ascii", "patchy land cover, 4 million cells"),
    ("r.stats -c\nnoise", "r.stats -c", "noise, 4 million cells"),
    ("r.clump\npatchy land cover", "r.clump", "patchy land cover, 4 million cells"),
    (
        "nine offsets, written\npatchy land cover",
        "sum of nine offsets, r.out.ascii",
        "patchy land cover, 4 million cells",
    ),
    (
        "r.reclass, counted\npatchy land cover",
        "r.reclass, r.stats -c",
        "patchy land cover, 4 million cells",
    ),
)


def speed(output, _):
    tables = figures.tables_of_results()
    charted = sorted(CHARTED, key=lambda it: float(tables[it[1:]][1]))
    rows = [tables[task, grids] for _, task, grids in charted]
    places, width = np.arange(len(rows)), 0.38
    figure, axes = plt.subplots(figsize=(11, 4.2), dpi=100)
    for shift, column, name, colour in (
        (-0.5, 1, "rcell", "#1b6ca8"),
        (0.5, 2, "C++, written by hand for the task", "#c9c9c9"),
    ):
        bars = axes.bar(
            places + shift * width,
            [float(row[column]) for row in rows],
            width,
            label=name,
            color=colour,
        )
        axes.bar_label(bars, fmt="%.1f", fontsize=8)
    axes.set_xticks(places, [title for title, _, _ in charted], fontsize=8)
    axes.set_ylabel("CPU time, ms per million cells")
    axes.set_title(
        "CPU time of seven tasks: rcell, and a C++ program written for each", fontsize=11
    )
    axes.legend(frameon=False)
    for side in ("top", "right"):
        axes.spines[side].set_visible(False)
    figure.tight_layout()
    figure.savefig(output)


def main():
    words = argparse.ArgumentParser(description="Draws a picture of the documents.")
    words.add_argument("picture", choices=("study", "examples", "islands", "speed"))
    words.add_argument("output")
    words.add_argument("--program", default=f"{ROOT}/bin/rcell")
    wanted = words.parse_args()
    {"study": study, "examples": examples, "islands": islands, "speed": speed}[wanted.picture](
        wanted.output, os.path.abspath(wanted.program)
    )


if __name__ == "__main__":
    main()
