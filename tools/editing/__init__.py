"""Tries edits that must fail, and lists the clauses that they break."""
