% A pipeline of three modules: numbers are made here, squared in stage.pl and printed by sink.pl. Each stage runs on an engine of
% its own and hands its results on through a concurrent predicate, in order; closing one predicate after another ends them all.
:- module(main, [main/0], [concurrency]).
:- use_module(stage).
:- use_module(sink).

main :-
    eng_call(squares, create, create, Stage),
    eng_call(prints, create, create, Sink),
    numbers(1, 5),
    no_more_numbers,
    eng_wait(Stage),
    no_more_squares,
    eng_wait(Sink).

numbers(I, Last) :- I > Last, !.
numbers(I, Last) :- number_for_stage(I), J is I + 1, numbers(J, Last).
