"""The version of the module, which is the program's: `checks/version` compares the two."""

VERSION = "0.4.0"
