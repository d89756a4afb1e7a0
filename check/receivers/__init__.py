"""Stacks and monitors that read what norm writes, and the promises of the rules."""
