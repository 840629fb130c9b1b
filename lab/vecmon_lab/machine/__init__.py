"""The program vecmon: its path, sessions with it, the lines that it executes, and their answers."""
