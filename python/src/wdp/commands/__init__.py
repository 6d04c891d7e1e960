"""The commands of wdp-office, a module for each: its arguments, and what it does with the
library.
"""
