"""The version, as the program tells it; release/make writes this file."""
__version__ = "1.23.0"
