"""The module lispm is that of examples/library."""
import os

with open(os.path.join(os.path.dirname(os.path.realpath(__file__)), "..", "..", "examples", "library", "lispm.py")) as module:
    exec(compile(module.read(), module.name, "exec"))
