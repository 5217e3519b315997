"""Drawings by node: web/draw is the one place that draws memory and objects."""
import json
import os
import re
import shutil
import subprocess
from functools import lru_cache
from typing import Any, Dict, Optional

from .. import program, tool

DRAW = os.path.join(program.TOP, "web", "draw", "draw.mjs")
LEAST = 18


@lru_cache(maxsize=None)
def find() -> Optional[str]:
    """The path of node: $NODE, else the one that is installed, if its version is 18 or later."""
    path = os.environ.get("NODE") or shutil.which("node") or shutil.which("nodejs")
    if path is None or not os.access(path, os.X_OK):
        return None
    told = subprocess.run([path, "--version"], stdout=subprocess.PIPE, text=True).stdout
    found = re.match(r"v([0-9]+)\.", told)
    return path if found and int(found.group(1)) >= LEAST else None


def draw(value: Dict[str, Any]) -> str:
    """The SVG of what a value describes (web/draw/draw.mjs has its form)."""
    path = find()
    if path is None:
        raise tool.ToolError(f"a drawing needs node {LEAST} or later: apt-get install nodejs", tool.MISSING)
    ended = subprocess.run([path, DRAW], input=json.dumps(value).encode(), stdout=subprocess.PIPE)
    if ended.returncode:
        raise tool.ToolError("web/draw/draw.mjs failed", tool.MISSING)
    return ended.stdout.decode()
