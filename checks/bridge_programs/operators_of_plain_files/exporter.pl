:- module(exporter, [op(700, xfx, <~>)]).
