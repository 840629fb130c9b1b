"""C sources: a stock compiler compiles them in a sandbox, and monitor lines load the result."""
