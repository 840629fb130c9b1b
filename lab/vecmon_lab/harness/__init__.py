"""The environments of golden programs, their sources, and the ELF files built from them."""
