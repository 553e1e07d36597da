"""Families of the machine: what runs, what hears, what holds which value."""
