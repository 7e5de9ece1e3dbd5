"""Tests of the judge on written logs, of damage, and of power cuts."""
