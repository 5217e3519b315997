"""The package lib is that of tools/lib."""
import os

__path__ = [os.path.join(os.path.dirname(os.path.realpath(__file__)), "..", "..", "tools", "lib")]
with open(os.path.join(__path__[0], "__init__.py")) as package:
    exec(compile(package.read(), package.name, "exec"))
