% The last stage: it waits for squares and prints them.
:- module(sink, [prints/0, square_for_sink/1, no_more_squares/0], [concurrency]).

:- concurrent square/1.

square_for_sink(S) :- assertz_fact(square(S)).
no_more_squares :- close_predicate(square(_)).

prints :- retract_fact(square(S)), write(S), nl, fail.
prints.
