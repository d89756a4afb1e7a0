"""Comparisons of pages with the code and with what runs, and the scripts that write pages."""
