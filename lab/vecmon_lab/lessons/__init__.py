"""Lessons: pages that show a script or a source in steps, frame by frame."""
