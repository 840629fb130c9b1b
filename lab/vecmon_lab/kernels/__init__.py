"""Call a program's functions from Python."""
