"""Imports the sources of MeCab dictionaries: the program kumquatsieve-import(1)."""

__version__ = "0.1.0"
