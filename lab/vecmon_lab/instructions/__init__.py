"""The instruction set: decoded instructions, their memory accesses, and the reasons why a word is illegal."""
