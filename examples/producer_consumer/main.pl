% One engine produces items, another takes them. retract_fact(item(X)) takes the first item that matches and waits where there
% is none; once the predicate is closed and empty it fails, so that the consumer knows that no item comes any more.
:- module(main, [main/0], [concurrency]).

:- concurrent item/1.

main :-
    eng_call(produce(1, 5), create, create, Producer),
    consume,
    eng_wait(Producer).

produce(I, Last) :- I > Last, !, close_predicate(item(_)).
produce(I, Last) :- assertz_fact(item(I)), J is I + 1, produce(J, Last).

consume :- retract_fact(item(X)), !, write(took(X)), nl, consume.
consume :- write(done), nl.
