"""The version, that of the library which the package was made for."""
VERSION = '1.7.0'
