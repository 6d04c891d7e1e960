"""The version of the package, which is the program's."""

VERSION = "2.0.0"
