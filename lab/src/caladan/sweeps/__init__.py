"""Runs of a table, or of several, at one load after the other."""
