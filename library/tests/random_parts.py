"""Random closed meshes, whose coordinates are whole micrometres."""


def random_part(dice, span):
    """Tetrahedra that may overlap and face inwards, some flat or with two equal corners, and a lumpy sphere or a prism. No
    coordinate is farther than `span` from 0."""
    facets = []
    for _ in range(dice.randint(1, 6)):
        a, b, c, d = ([dice.randint(-span, span) for _ in range(3)] for _ in range(4))
        if dice.random() < 0.2:
            d = c
        if dice.random() < 0.2:
            a[2] = b[2] = c[2]
        facets += [(a, b, c), (a, c, d), (a, d, b), (b, d, c)]
    n = dice.randint(3, 24)
    ring = [[dice.randint(-span, span), dice.randint(-span, span)] for _ in range(n)]
    low, high = sorted(dice.sample(range(-span, span), 2))
    for at in range(n):
        (x, y), (u, v) = ring[at - 1], ring[at]
        facets += [([x, y, low], [u, v, low], [u, v, high]), ([x, y, low], [u, v, high], [x, y, high])]
        facets += [([0, 0, low], [u, v, low], [x, y, low]), ([0, 0, high], [x, y, high], [u, v, high])]
    dice.shuffle(facets)
    return facets
