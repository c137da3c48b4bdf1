"""Whether docs/REFERENCE.md is what tests/tools/reference.py makes of the sources, and whether each public name and call says what
it is, and when it fails. The tool has the test, too, so that it doesn't matter which of the two modules is imported."""
import importlib.util
import pathlib
import sys

TOOL = pathlib.Path(__file__).resolve().parents[1] / "tools" / "reference.py"


def tool():
    """The tool, under a name of its own, since this module has the same one."""
    found = importlib.util.spec_from_file_location("reference_tool", TOOL)
    module = importlib.util.module_from_spec(found)
    sys.modules["reference_tool"] = module
    found.loader.exec_module(module)
    return module


def reference():
    """Returns how many tests passed and failed."""
    return tool().reference()


if __name__ == "__main__":
    sys.exit(1 if reference()[1] else 0)
