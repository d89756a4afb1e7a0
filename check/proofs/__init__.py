"""Edits that must fail, what a theorem rests on, and false programs for each check."""
