"""The package's version; `tools/version` writes it."""

__version__ = "0.2.0"
