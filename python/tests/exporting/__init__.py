"""Tests of the export of answers."""
