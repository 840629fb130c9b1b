"""Run an image to its end: as a plain program, compared, counted or profiled."""
