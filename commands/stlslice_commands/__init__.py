"""What the commands `stlslice-sl1`, `stlslice-pngs`, `stlslice-page` and `stlslice-slabs` are made of. It needs Python's standard
library (3.8 or later); all but the last need the module `stlslice` too. docs/ARCHITECTURE.md says what each module does."""

import os

from . import faults  # noqa: F401, first, since it heeds signals while other modules are read

# in the repository the library is the one that was built there
BUILT = os.path.join(os.path.dirname(os.path.abspath(__file__)), "../../build/library/libstlslice.so")
if os.path.exists(BUILT):
    os.environ.setdefault("STLSLICE_LIBRARY", BUILT)
