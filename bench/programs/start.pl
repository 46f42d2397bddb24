% Nothing but a start.
:- module(start, [main/0]).
main :- true.
