"""Comparisons of the built programs with the model."""
