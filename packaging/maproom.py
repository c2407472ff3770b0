"""Stands for the package clients/python/maproom, which packaging/rooms imports."""
import importlib
import os
import sys

sys.path.insert(0, os.path.join(os.path.dirname(os.path.dirname(os.path.realpath(__file__))), "clients/python"))
del sys.modules[__name__]
importlib.import_module(__name__)
