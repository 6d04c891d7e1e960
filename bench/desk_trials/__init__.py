"""The parts of bench/desk: desks, callers, trials, and machines whose disk and clock fail."""
