"""The front, which serves several clients by one `cca run`, and what an operator does beside it."""
