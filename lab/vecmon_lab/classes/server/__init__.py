"""The server of a class: its connections, folder, machines and pages."""
