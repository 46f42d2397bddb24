% The stage in the middle: it waits for numbers and hands their squares to sink.pl.
:- module(stage, [squares/0, number_for_stage/1, no_more_numbers/0], [concurrency]).
:- use_module(sink, [square_for_sink/1]).

:- concurrent pending/1.

number_for_stage(N) :- assertz_fact(pending(N)).
no_more_numbers :- close_predicate(pending(_)).

squares :- retract_fact(pending(N)), Square is N * N, square_for_sink(Square), fail.
squares.
