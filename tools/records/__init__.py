"""Writes and compares what repeats the records of instructions."""
