"""Whether a program relies on what the standard leaves open: the choices that matter, and what they change."""
