"""Cases worked by hand."""
