"""The playground: the student's page, with the lab and the machine in the browser, without a server."""
