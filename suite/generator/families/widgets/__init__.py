"""Families of widgets: fields, buttons, lists, token groups."""
