#!/usr/bin/env python3
"""Writes the polygons of the countries of DCW as GeoJSON, by way of GMT.

    countries.py OUT.geojson LABELS

A country's code is its place, from 1, in the order of the ISO codes. LABELS gets a line `code name` for each.
"""
import json
import subprocess
import sys

# A polygon may lie beyond the date line; its copies a whole turn to either side are written too, where they meet the map.
TURNS = (0, -360, 360)
LEAST_CORNERS = 3


def said_by_gmt(*words):
    return subprocess.run(
        ["gmt", "coast", *words], check=True, capture_output=True, text=True
    ).stdout.splitlines()


def countries():
    """The ISO code and the name of each country, in the order of the codes."""
    return sorted(tuple(line.split("\t")[:2]) for line in said_by_gmt("-E+l") if "\t" in line)


def rings(iso):
    """The closed rings of a country's borders, each a list of longitudes and latitudes."""
    found = []
    for line in said_by_gmt(f"-E{iso}", "-M"):
        if line.startswith(">"):
            found.append([])
        elif line.strip():
            found[-1].append([float(word) for word in line.split()[:2]])
    return [
        ring if ring[0] == ring[-1] else [*ring, ring[0]]
        for ring in found
        if len(ring) >= LEAST_CORNERS
    ]


def on_the_map(ring):
    """The ring's copies between the meridians of -180 and 180 degrees."""
    for turn in TURNS:
        moved = [[longitude + turn, latitude] for longitude, latitude in ring]
        if (
            min(longitude for longitude, _ in moved) < 180
            and max(longitude for longitude, _ in moved) > -180
        ):
            yield moved


def feature(code, ring):
    return {
        "type": "Feature",
        "properties": {"code": code},
        "geometry": {"type": "Polygon", "coordinates": [ring]},
    }


def main(output, labels):
    features, lines = [], []
    for code, (iso, name) in enumerate(countries(), 1):
        found = [feature(code, moved) for ring in rings(iso) for moved in on_the_map(ring)]
        features += found
        lines += [f"{code} {name}\n"] if found else []
    with open(output, "w", encoding="utf-8") as file:
        json.dump({"type": "FeatureCollection", "features": features}, file)
    with open(labels, "w", encoding="utf-8") as file:
        file.writelines(lines)


if __name__ == "__main__":
    main(*sys.argv[1:])
