"""The version, which the file VERSION says for all that is built."""

__version__ = "5.0.0"
