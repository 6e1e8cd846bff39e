"""The version of this module, which is that of the library too."""

__version__ = "0.5.0"
