"""The rows of tests/importer/run.py."""
