# The environment of vecmon: a fault ends the program, so there is no handler.
environment_begin:
environment_open:
environment_close:      ret
