"""Checks of sources, pages, programs, packages and releases."""
