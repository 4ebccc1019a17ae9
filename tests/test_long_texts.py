"""Texts that are long in one place are answered rightly, in time that grows with their length, in little memory: the
texts of bench/long_texts.py at a fiftieth of their size. Two gigabytes are 40 MB here, which already wouldn't fit in the
memory that is allowed. A stand-in whose time grows as the square of the length is told from the program."""

import sys

from common import PROGRAM, Case
from long_texts import texts, try_all, try_text

ALONE = True
PART = 50
# A program that takes this many seconds of processor time for the whole text, and a sixteenth of them for a quarter.
SECONDS = 2
SLOW = """#!{python} -SE
import sys, time
length = 0
while piece := sys.stdin.buffer.read(1 << 20):
    length += len(piece)
end = time.process_time() + {seconds} * (length / {whole}) ** 2
while time.process_time() < end:
    pass
sys.stdout.write({answer!r})
"""


class LongTexts(Case):
    def test_long_texts_take_little_memory(self):
        wrong = try_all(PROGRAM, PART)
        assert not wrong, "\n".join(wrong)

    def test_a_program_is_slow_if_its_time_grows_as_the_square(self):
        text = next(texts(PART))
        body = SLOW.format(python=sys.executable, seconds=SECONDS, whole=text.length, answer=text.answer[1].decode())
        wrong = try_text(self.room.put("slow", body, 0o755), text)
        assert any(it.endswith("s for a quarter of the length") for it in wrong), f"the slow program is not told: {wrong}"
