"""Tests of the package, by unittest only."""
