"""A server of gdb's remote protocol for a machine with an image."""
