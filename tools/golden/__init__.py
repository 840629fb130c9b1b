"""Golden vectors: derives them again, and writes theorems from them."""
