"""Whether the colours of classes differ for each kind of eyes: by the simulation of Machado, Oliveira and Fernandes (2009) of those
that lack a kind of cones, and the distance of two colours in CIE L*a*b*."""
import itertools
import re

# What each kind of eyes sees of red, green and blue light.
EYES = {
    "all cones": ((1, 0, 0), (0, 1, 0), (0, 0, 1)),
    "no red cones": ((0.152286, 1.052583, -0.204868), (0.114503, 0.786281, 0.099216), (-0.003882, -0.048116, 1.051998)),
    "no green cones": ((0.367322, 0.860646, -0.227968), (0.280085, 0.672501, 0.047413), (-0.01182, 0.04294, 0.968881)),
    "no blue cones": ((1.255528, -0.076749, -0.178779), (-0.078411, 0.930809, 0.147602), (0.004733, 0.691367, 0.3039)),
}
# A distance of about 2 can just be told side by side.
LEAST = 12


def light(part):
    """Returns how much light a byte of a colour stands for."""
    part /= 255
    return part / 12.92 if part <= 0.04045 else ((part + 0.055) / 1.055) ** 2.4


def lab(red, green, blue):
    """Returns the L*a*b* of light."""
    x = (0.4124 * red + 0.3576 * green + 0.1805 * blue) / 0.95047
    y = 0.2126 * red + 0.7152 * green + 0.0722 * blue
    z = (0.0193 * red + 0.1192 * green + 0.9505 * blue) / 1.08883
    x, y, z = (part ** (1 / 3) if part > 0.008856 else 7.787 * part + 16 / 116 for part in (x, y, z))
    return 116 * y - 16, 500 * (x - y), 200 * (y - z)


def seen(colour, eyes):
    """Returns what eyes see of a colour."""
    given = [light(int(colour[at : at + 2], 16)) for at in (1, 3, 5)]
    return lab(*(min(1, max(0, sum(part * much for part, much in zip(given, row)))) for row in eyes))


def distances(colours, eyes):
    """Yields two colours at a time and how far apart eyes see them."""
    for one, other in itertools.combinations(colours, 2):
        yield one, other, sum((a - b) ** 2 for a, b in zip(seen(one, eyes), seen(other, eyes))) ** 0.5


def all_of(page):
    """Yields what is looked at, the colours that are too near to each other, and none."""
    colours = re.findall(r"#[0-9a-f]{6}", re.search(r"PALETTE = \[(.*?)\]", page, re.DOTALL)[1])
    yield "how many colours there are", len(set(colours)), 12
    for name, eyes in EYES.items():
        yield f"colours that are alike to eyes with {name}", [found for found in distances(colours, eyes) if found[2] < LEAST], []
