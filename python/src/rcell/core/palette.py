# SPDX-License-Identifier: Apache-2.0 OR GPL-2.0-or-later
"""Choose colours for classes that have none."""

from __future__ import annotations

import colorsys

__all__ = ["colour_at"]

# Steps of the golden ratio around the colour wheel keep consecutive hues apart.
_GOLDEN = 0.618033988749895


def colour_at(place: int) -> tuple[int, int, int]:
    """Return the RGB colour for a position in a legend, distinct from the colours next to it.

    Examples
    --------
    >>> colour_at(0)
    (131, 235, 129)
    """
    hue = (0.33 + place * _GOLDEN) % 1.0
    saturation = 0.45 + 0.15 * (place % 3)
    brightness = 0.92 - 0.16 * (place // 3 % 3)
    red, green, blue = colorsys.hsv_to_rgb(hue, saturation, brightness)
    return round(red * 255), round(green * 255), round(blue * 255)
