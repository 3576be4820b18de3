"""Puts the folder tools/ on the path, where the second implementations stand that these scripts compare with."""

import os
import sys

sys.path.insert(1, os.path.join(os.path.dirname(os.path.dirname(os.path.abspath(__file__))), "tools"))
