"""Stands for tests/lib, whose modules the scripts of this folder import."""
import importlib
import os
import sys

sys.path.insert(0, os.path.dirname(os.path.dirname(os.path.realpath(__file__))))
del sys.modules[__name__]
importlib.import_module(__name__)
