"""The language server: help for an assembler source in an editor, without running it."""
