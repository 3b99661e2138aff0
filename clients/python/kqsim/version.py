"""The version of this package, which is that of the program kqstep."""

VERSION = "0.16.0"
