"""A debug adapter, with which editors debug a program on the machine by the Debug Adapter Protocol (docs/EDITORS.md)."""
