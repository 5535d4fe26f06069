"""The version of the module, the same as the program's."""

__version__ = "0.7.7"
