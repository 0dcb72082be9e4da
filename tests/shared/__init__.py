"""Parts that several groups use: the harness, the server that runs, fault injection, plain definitions."""
