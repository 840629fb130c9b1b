"""Makes packages of other kinds, and the page of a release."""
