"""norm-bridge between two hosts."""
