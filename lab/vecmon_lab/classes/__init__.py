"""A class: one machine, and a page for each of its students and for their teacher."""
