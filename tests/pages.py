"""Reads the fenced blocks of a page of Markdown, for the tests that run them."""

import re
from collections import namedtuple

HEAD = re.compile(r"^(#{1,6}) (.*)$")
FENCE = re.compile(r"^```(\w*) ?(.*)$")


# A fenced block: the heading that it stands under, its language, the words after that, its text, and the plain text between
# it and the block before, or the heading.
Block = namedtuple("Block", "head language words body before")


def blocks(path):
    with open(path, encoding="utf-8") as file:
        lines = iter(file.read().splitlines())
    head, before, found = "", [], []
    for line in lines:
        fence = FENCE.match(line)
        if fence:
            body = []
            for line in lines:
                if line == "```":
                    break
                body.append(line)
            else:
                raise AssertionError(f"{path}: a block isn't closed")
            found.append(Block(head, fence[1], fence[2].split(), "".join(f"{line}\n" for line in body), "\n".join(before)))
            before = []
        elif HEAD.match(line):
            head, before = HEAD.match(line)[2], []
        else:
            before.append(line)
    return found
