"""Tests of the package. Run them by: cd python && python3 -m unittest"""
