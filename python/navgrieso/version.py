"""The version of this client, which is that of the program."""

VERSION = "0.1.0"
