"""A library that this Python lacks may be there for the system's own: then the tool runs again under that one, once."""
import importlib.util
import os
import sys

from . import tool

SYSTEM = "/usr/bin/python3"
MARK = "LISPM_TOOL_PYTHON"


def needs(library: str, package: str) -> None:
    """Goes on if the library is there, else runs the tool under the system's Python, else says what to install."""
    if importlib.util.find_spec(library) is not None:
        return
    if os.path.exists(SYSTEM) and os.path.realpath(sys.executable) != os.path.realpath(SYSTEM) and MARK not in os.environ:
        os.environ[MARK] = "system"
        os.execv(SYSTEM, [SYSTEM, *sys.argv])
    raise tool.ToolError(f"needs {library}: apt-get install {package}", tool.MISSING)
