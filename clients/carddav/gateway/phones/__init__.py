"""The forms of phone books, one a file: what a maker's phones read."""
