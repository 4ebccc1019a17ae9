"""A part of many facets as several meshes of whole shells, each small enough for the library."""

import itertools
from array import array
from collections import Counter
from typing import Any, Collection, Dict, Iterable, Iterator, List, Sequence, Tuple

from . import NOT_READ, Box, Fault, Progress

LIMIT = 1_048_576 - 2  # facets of a group, beside the two that are put to it
BLOCK = 1 << 16

Numbers = Sequence[int]


def split(facets: Iterable[Any], progress: Progress = None) -> "Tuple[array[int], List[array[int]]]":
    """The points of a part, and groups of its triangles; `open_mesh` takes each group with these points. Together the groups are
    all of the part. Each has whole shells, in the order of their facets. Facets belong to one shell if they share a corner.

    `facets` are as `read` returns them, of any number: for each its three corners, and for each of these three whole
    micrometres. Without facets there is no group. `progress`, if given, is called now and then with how far it is, as
    `facet 65,536 of 2,000,000`.

    The last two triangles of each group are put to it, so that all groups stand in one place of a canvas: one reaches through
    the part's box, and the other is the same turned round, so no pixel is another. `images.joined` makes the part's images of
    those of the groups.

    Raises a `Fault` of status 3 if a shell has more facets than a mesh may have with these two, and `ValueError` or
    `OverflowError` if the facets are not as `read` returns them.
    """
    number_of: Dict[Tuple[int, ...], int] = {}
    blocks = _in_blocks(facets, progress)
    triangles = array("I", (number_of.setdefault((x, y, z), len(number_of)) for a, b, c in blocks for x, y, z in (a, b, c)))
    if not triangles:
        return array("i"), []
    points, above = array("i", itertools.chain.from_iterable(number_of)), array("l", range(len(number_of)))
    del number_of
    corners = [triangles[k::3] for k in range(3)]
    for a, b, c in zip(*corners):
        above[_root(above, b)] = above[_root(above, c)] = _root(above, a)
    shell_of = array("l", (_root(above, it) for it in corners[0]))
    group_of, count = _packed(shell_of)
    groups = [array("I") for _ in range(count)]
    for at, shell in enumerate(shell_of):
        groups[group_of[shell]].extend(triangles[3 * at:3 * at + 3])
    # degenerate facets don't count for the place on a canvas
    kept, last = {it for facet in zip(*corners) if len(set(facet)) == 3 for it in facet}, len(points) // 3
    low, high = (array("i", end) for end in box_of(points, kept)[1:])
    between = next((it for it in kept if points[3 * it:3 * it + 3] not in (low, high)), 0)
    points.extend(low + high)
    for group in groups:
        group.extend([last, last + 1, between, last, between, last + 1])
    return points, groups


def facets_of(points: Numbers, triangles: Numbers) -> Iterator[List[Numbers]]:
    """The facets of flat arrays, each by its three corners."""
    for at in range(0, len(triangles), 3):
        yield [points[3 * it:3 * it + 3] for it in triangles[at:at + 3]]


def box_of(points: Numbers, triangles: Collection[int]) -> Box:
    """The box of the facets of flat arrays. They need not be closed."""
    used = set(triangles)
    low, high = (tuple(end((points[3 * it + k] for it in used), default=0) for k in range(3)) for end in (min, max))
    return Box(len(triangles) // 3, low, high)


def _in_blocks(facets: Any, progress: Progress) -> Iterator[Any]:
    """The facets one by one. Those of numpy are handed out faster as lists."""
    if not hasattr(facets, "tolist"):
        yield from facets
        return
    for at in range(0, len(facets), BLOCK):
        yield from facets[at:at + BLOCK].tolist()
        if progress:
            progress(f"facet {at:,} of {len(facets):,}")


def _packed(shell_of: Numbers) -> Tuple[Dict[int, int], int]:
    """The group of each shell, and how many groups there are: each shell stands in the first group that has room for it."""
    group_of: Dict[int, int] = {}
    room: List[int] = []
    for shell, size in Counter(shell_of).items():
        if size > LIMIT:
            raise Fault(NOT_READ, f"the part has a shell of {size:,} facets, and at most {LIMIT:,} are taken: export it coarser")
        number = next((k for k, left in enumerate(room) if left >= size), len(room))
        if number == len(room):
            room.append(LIMIT)
        room[number] -= size
        group_of[shell] = number
    return group_of, len(room)


def _root(above: "array[int]", at: int) -> int:
    """The corner that stands for all of its shell, as far as it is known yet."""
    while above[at] != at:
        above[at] = at = above[above[at]]
    return at
