"""Go back to earlier states of a program's run by executing it again, and find the instructions that access given memory."""
