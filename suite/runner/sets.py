"""Which cases a set has."""
import os

SMOKE = os.path.join(os.path.dirname(os.path.dirname(os.path.abspath(__file__))), "smoke")


def smoke_set():
    """The names of the cases that tell the most."""
    with open(SMOKE, encoding="utf-8") as file:
        return [line.split()[0] for line in file if line.strip() and not line.startswith("#")]
