"""The parts of norm-run: its words, how it opens IN, how it runs programs, and the page that it
prints."""
