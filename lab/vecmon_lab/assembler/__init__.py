"""Assembler source as lines of the monitor, and explanations of the monitor's commands and refusals."""
