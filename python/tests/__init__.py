"""Tests of the package `actus`: `python3 -m unittest discover -s python/tests` at the top of the repository.

Where a test needs the program it is taken from the environment variable ACTUS, or else the one that `./actus` at the top
has built, and `actus_audit` likewise from ACTUS_AUDIT; where there is none, the test is passed over and says so.
"""
