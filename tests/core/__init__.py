"""Calls of the server's parts: the yard, its tables and events."""
