"""Runs of several tables on the same arrivals."""
