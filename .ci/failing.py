"""A program whose calls fail, as the library `failing_calls.c` makes them."""

import os
import subprocess
import sys
from pathlib import Path

HERE = Path(__file__).resolve().parent
sys.path.insert(0, str(HERE.parent / "bench"))
from program import Program  # noqa: E402

REPORT = 9  # the descriptor that failing_calls.c writes to


def compiled(room):
    """The library, compiled into a folder."""
    library = f"{room}/failing_calls.so"
    subprocess.run(["cc", "-O1", "-shared", "-fPIC", "-o", library, HERE / "failing_calls.c"], check=True)
    return library


class Failing(Program):
    """A program whose calls fail by the library."""

    def __init__(self, command, library):
        super().__init__(command)
        self.library = library
        self.report = os.memfd_create("report")
        self.files.append((os.POSIX_SPAWN_DUP2, self.report, REPORT))

    def answer(self, script, **settings):
        """The status and the output; `counts` has the calls."""
        os.ftruncate(self.report, 0)
        os.lseek(self.report, 0, os.SEEK_SET)
        os.environ.update({"LD_PRELOAD": self.library, **{name.upper(): str(it) for name, it in settings.items()}})
        try:
            answer = super().answer(script)
        finally:
            for name in ("LD_PRELOAD", *map(str.upper, settings)):
                del os.environ[name]
        self.counts = [int(it) for it in os.pread(self.report, 100, 0).split()] or [0, 0, 0, 0]
        return answer
