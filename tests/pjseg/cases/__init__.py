"""The test cases of tests/pjseg/run.py."""
