"""Prints where the Python module goes under a prefix: `python3 build/python_dir.py PREFIX`. That is the first folder under PREFIX/lib in
which this Python looks for modules, if there is one, so that it finds the module by itself; else PREFIX/lib/pythonX.Y/site-packages."""

import site
import sys

lib = sys.argv[1].rstrip("/") + "/lib/"
looked_in = [folder for folder in site.getsitepackages() if folder.startswith(lib)]
print(looked_in[0] if looked_in else "%spython%d.%d/site-packages" % (lib, sys.version_info[0], sys.version_info[1]))
