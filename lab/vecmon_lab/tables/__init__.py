"""Tables as text: the lab's own tables, which are files in this folder, and tables that commands print."""
