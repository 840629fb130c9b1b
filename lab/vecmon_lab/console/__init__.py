"""A prompt at one user's machine."""
