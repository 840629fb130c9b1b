"""Measures sizes, times and machine instructions."""
