"""The server with real clients on real sockets."""
