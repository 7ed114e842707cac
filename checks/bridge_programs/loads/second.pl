two.
