% The philosophers again, but each takes the left fork, waits until all five have done so, and then asks for the right one, which
% another holds: all wait for good. The program ends with status 3 and says where the first goal waits: for the end of the first
% philosopher, among the goals that have ended.
:- module(main, [main/0], [concurrency]).

:- concurrent fork/1.
:- concurrent holds/1.

fork(1).
fork(2).
fork(3).
fork(4).
fork(5).

main :-
    start(1, Philosophers),
    wait(Philosophers),
    write('all have eaten'), nl.

start(P, []) :- P > 5, !.
start(P, [Id|Ids]) :- eng_call(dine(P), create, create, Id), Q is P + 1, start(Q, Ids).

wait([]).
wait([Id|Ids]) :- eng_wait(Id), wait(Ids).

dine(P) :-
    retract_fact(fork(P)), !,
    assertz_fact(holds(P)),
    holds(1), holds(2), holds(3), holds(4), holds(5), !,
    Right is P mod 5 + 1,
    retract_fact(fork(Right)).
