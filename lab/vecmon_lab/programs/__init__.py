"""Random programs with the machine's results, and comparisons of the machine with logs of other devices."""
