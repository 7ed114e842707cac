one :- two.
