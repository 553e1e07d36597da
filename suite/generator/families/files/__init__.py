"""Families of files: names, notations, what is refused."""
