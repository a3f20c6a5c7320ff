"""What the scripts share. A script in a folder of tools/ begins with

    sys.path.insert(0, os.path.dirname(os.path.dirname(os.path.abspath(__file__))))

and imports from lib, and behind it from pibranog (python/); one that stands in tools/ itself needs no such line. No script imports
another."""
import os
import sys

ROOT = os.path.dirname(os.path.dirname(os.path.dirname(os.path.abspath(__file__))))
sys.path.append(os.path.join(ROOT, "python"))
