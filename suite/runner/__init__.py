"""The runner: `frames` reads and compares what is shown, `playing` plays a case by an adapter, `telling` prints what came of it."""
