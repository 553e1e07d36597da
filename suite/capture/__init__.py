"""Captured pictures: `png` reads them, `cells` cuts them, `learned` knows glyphs and colours from the calibration page."""
