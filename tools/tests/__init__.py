"""Tests of this package: python3 -m tools.tests."""
