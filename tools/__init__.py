"""Programs that build, check, measure and release the repository. README.md lists them."""
