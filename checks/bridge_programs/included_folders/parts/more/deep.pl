deep :- near.
