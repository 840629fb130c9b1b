"""Build pages from their files: join modules to one script, replace keys by texts, and make elements of HTML."""
