"""The workbench around the program `nooks`: it makes its inputs and draws its outputs."""

# The version of the program that it comes with.
__version__ = "0.11.0"
