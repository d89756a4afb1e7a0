"""The plain model: a second reading of the rules of norm."""
