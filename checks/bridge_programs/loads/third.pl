three.
