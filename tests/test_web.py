"""If the page that slices is built, it shows in a browser what the program and the library return (library/web/test), and
can be timed (bench/page.py); and docs/embedding.md has the right numbers of lines that are trusted beside what is proved."""

import os
import re
import sys

from common import PROGRAM, ROOT, Case, is_old, library, needs, same, skip, text_of

PAGE = "build/web/preview.html"
OF_C = ["library/web/heap.c", "library/web/runtime.c"]
OF_PAGE = [f"{folder}/{name}" for folder in ("library/web", "library/web/tests") for name in sorted(os.listdir(os.path.join(ROOT, folder)))
           if name.endswith((".js", ".py", ".html", ".css"))]
OF_SCRIPT = [name for name in OF_PAGE if name.endswith(".js") and "/tests/" not in name]
LONGEST = 300  # lines of a file of the page and its tests


class Web(Case):
    def test_documents_tell_the_lines_that_are_trusted(self):
        """To the next ten."""
        section = text_of("docs/embedding.md").split("\n## A page that slices\n")[1]
        told = re.search(r"(\d+) lines of C\b.*?(\d+) of JavaScript", section).groups()
        heap = re.search(r"some (\d+) lines of C\b", text_of("docs/decisions/page-from-the-native-module.md"))[1]
        for number, names in zip((*told, heap), (OF_C, OF_SCRIPT, ["library/web/heap.c"])):
            lines = sum(text_of(name).count("\n") for name in names)
            assert abs(int(number) - lines) < 10, f"{number} lines are told, and {names} have {lines}"
        same([name for name in OF_PAGE if text_of(name).count("\n") > LONGEST], [], "long files")

    def test_a_colour_stands_in_one_place(self):
        """Among the variables at the beginning of style.css."""
        named = r"#(?:[0-9a-f]{3,4}){1,2}\b|\b(?:rgb|hsl)a?\("
        texts = {name: text_of(name) for name in OF_PAGE if "/tests/" not in name and not name.endswith(".py")}
        style, found = "library/web/style.css", lambda text: re.findall(named, text, re.I)
        variables, texts[style] = re.match(r"(?s)(:root \{.*?\n\}\n@media [^\n]*\{\n.*?\n\}\n)(.*)", texts[style]).groups()
        assert len(found(variables)) > 30, "few colours"
        same({name: found(text) for name, text in texts.items() if found(text)}, {}, "colours elsewhere")

    @needs("chromium")
    def test_the_page_shows_what_program_and_library_return(self):
        if not os.path.exists(os.path.join(ROOT, PAGE)):
            skip("the page isn't built (make web)")
        folder = os.path.dirname(library())
        if is_old(PAGE):
            skip("the page is older than its sources (make web)")
        ran = self.room.run(sys.executable, "library/web/test", PAGE, PROGRAM, folder, self.room.file("pictures"))
        print(ran.out + ran.fault)
        same((ran.status, ran.out.splitlines()[-1:]), (0, ["passed"]), "status and last line of library/web/test")
        told = re.search(r"(\d+) pictures", ran.out)[1]
        same(len(os.listdir(self.room.file("pictures"))), int(told), "pictures of the page")
        missing = re.search(r"(?m)^skipped: (.*)$", ran.out)
        if missing:
            self.leave_out(missing[1])
        if os.path.exists(os.path.join(folder, os.pardir, "web", "stlslice32.wasm")):
            told = self.room.out(sys.executable, "bench/page.py", PAGE, folder, "1000")
            same(len(told.splitlines()), 2, "lines of bench/page.py")
