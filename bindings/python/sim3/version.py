"""The version of this package; tools/version writes it."""
__version__ = "1.1.0"
