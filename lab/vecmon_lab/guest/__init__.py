"""One user's program: run or step an image, report the changes by its instructions, and read its symbols."""
