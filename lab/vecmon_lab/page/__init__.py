"""The state of a machine as pages show it, and the files of pages."""
