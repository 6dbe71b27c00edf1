"""A repository of a test's own with copies of this one's tools."""
import pathlib
import shutil
import tempfile

import program

TOOLS = program.TOP / "tools"


def repository_with(test, *names):
    """A new folder with the tools of these names in its tools/, for as long as the test runs."""
    folder = tempfile.TemporaryDirectory(prefix="ipmd-test-")
    test.addCleanup(folder.cleanup)
    top = pathlib.Path(folder.name)
    (top / "tools").mkdir()
    for name in names:
        shutil.copy(TOOLS / name, top / "tools")
    return top
