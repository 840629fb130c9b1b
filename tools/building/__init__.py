"""Builds the programs, with and without proofs, for this host and other targets."""
