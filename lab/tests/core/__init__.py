"""Tests of caladan.core."""
