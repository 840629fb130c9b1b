"""A student's requests, which need no event loop, thread, process or socket."""
