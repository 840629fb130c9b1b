first: j first
