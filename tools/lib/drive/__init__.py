"""Drivers: a heap in a driver, the judgement of a driver's run, and many inputs over a driver."""
