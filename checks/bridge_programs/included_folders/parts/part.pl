:- use_module(beside).
:- include('more/deep').
part :- beside.
