"""Golden results of single instructions."""
