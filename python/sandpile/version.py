"""The version, in a file of its own so that it can be read before the library is built."""

VERSION = "1.0.0"
