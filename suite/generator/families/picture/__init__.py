"""Families of the picture: boxes, shapes, texts."""
