"""Prints the folder below a prefix, relative to it, in which this Python looks for packages, or else the customary one."""
import os
import site
import sys

prefix = os.path.realpath(sys.argv[1])
places = [os.path.relpath(os.path.realpath(it), prefix) for it in [*sys.path, site.getusersitepackages()]]
own = [it for it in places if it.startswith("lib/") and it.endswith("-packages")]
print(next(iter(own), "lib/python{}.{}/site-packages".format(*sys.version_info)))
