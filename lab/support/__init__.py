"""Code shared by tests and tools."""
