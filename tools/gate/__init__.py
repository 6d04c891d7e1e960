"""The gate of this repository: the toolchain's own, its work in a better order, and its edits tried many at a time."""
