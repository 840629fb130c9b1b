"""Makes the pages that programs print, and the book."""
