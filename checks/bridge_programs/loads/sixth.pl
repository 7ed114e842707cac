:- module(sixth, [six/0]).
six.
