% SIZE facts are asserted and then taken, one after another, by one goal.
:- module(queue, [main/0], [concurrency]).
:- concurrent item/1.
main :- fill(1), take(0).
fill(I) :- I > SIZE, !, close_predicate(item(_)).
fill(I) :- assertz_fact(item(I)), J is I + 1, fill(J).
take(S) :- retract_fact(item(X)), !, T is S + X, take(T).
take(S) :- write(S), nl.
