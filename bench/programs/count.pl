% A loop that counts to SIZE.
:- module(count, [main/0]).
main :- count(0).
count(SIZE) :- !, write(SIZE), nl.
count(N) :- M is N + 1, count(M).
