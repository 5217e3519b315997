"""What the tools of this folder share: one idea a file, in a package for each subject."""
import os
import sys

if sys.version_info < (3, 9):
    sys.stderr.write("%s: needs Python 3.9 or later, and this is %d.%d\n" % ((os.path.basename(sys.argv[0]),) + sys.version_info[:2]))
    sys.exit(69)
