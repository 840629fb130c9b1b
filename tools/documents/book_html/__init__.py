"""The parts of tools/documents/book: its navigation, its sources and lexers, and Sphinx's configuration."""
