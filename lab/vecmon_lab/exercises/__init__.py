"""Exercises, and the grading of answers to them."""
