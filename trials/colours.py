#!/usr/bin/env python3
"""How well colours can be told apart by people who see all of them, or lack one kind of cones, or nearly.

A colour is `#rrggbb`.  What the colour-blind see of it is worked out by the matrices of Machado, Oliveira and Fernandes
(2009) at full severity.  Distances are those of Oklab; two greys that are black and white are 1 apart.
"""

SEEN = {
    "all cones": ((1, 0, 0), (0, 1, 0), (0, 0, 1)),
    "no red cones": ((0.152286, 1.052583, -0.204868), (0.114503, 0.786281, 0.099216), (-0.003882, -0.048116, 1.051998)),
    "no green cones": ((0.367322, 0.860646, -0.227968), (0.280085, 0.672501, 0.047413), (-0.01182, 0.04294, 0.968881)),
    "no blue cones": ((1.255528, -0.076749, -0.178779), (-0.078411, 0.930809, 0.147602), (0.004733, 0.691367, 0.3039)),
}
TO_CONES = (
    (0.4122214708, 0.5363325363, 0.0514459929),
    (0.2119034982, 0.6806995451, 0.1073969566),
    (0.0883024619, 0.2817188376, 0.6299787005),
)
TO_OKLAB = (
    (0.2104542553, 0.793617785, -0.0040720468),
    (1.9779984951, -2.428592205, 0.4505937099),
    (0.0259040371, 0.7827717662, -0.808675766),
)


def times(matrix, vector):
    return [sum(one * other for one, other in zip(row, vector)) for row in matrix]


def linear(octet):
    part = octet / 255
    return part / 12.92 if part <= 0.04045 else ((part + 0.055) / 1.055) ** 2.4


def oklab(colour, seen):
    """Lightness and two hues of a colour as it is seen."""
    light = times(SEEN[seen], [linear(it) for it in bytes.fromhex(colour[1:])])
    cones = times(TO_CONES, [min(1, max(0, it)) for it in light])
    return times(TO_OKLAB, [max(0, it) ** (1 / 3) for it in cones])


def distance(one, other, seen):
    pairs = zip(oklab(one, seen), oklab(other, seen))
    return sum((here - there) ** 2 for here, there in pairs) ** 0.5
