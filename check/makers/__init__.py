"""Makers of captures."""
