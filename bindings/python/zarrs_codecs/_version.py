"""The version of the package and of the library for C."""

__version__ = "0.1.0"
