"""Checkpoints: ordinary lines that bring a new machine into another machine's present state, and start another script."""
