"""Counts and prints the definitions that contracts rest on."""
