% Five philosophers share five forks, each of which is a fact. A philosopher takes the fork with the lower number first, so that
% there is no ring of waiting, and all come to eat under every schedule. The folder deadlock shows the other order.
:- module(main, [main/0], [concurrency]).

:- concurrent fork/1.
:- concurrent meal/1.

fork(1).
fork(2).
fork(3).
fork(4).
fork(5).

main :-
    start(1, Philosophers),
    wait(Philosophers),
    close_predicate(meal(_)),
    findall(P, meal(P), Meals),
    length(Meals, N),
    write(N), write(' meals'), nl.

start(P, []) :- P > 5, !.
start(P, [Id|Ids]) :- eng_call(dine(P, 3), create, create, Id), Q is P + 1, start(Q, Ids).

wait([]).
wait([Id|Ids]) :- eng_wait(Id), wait(Ids).

dine(_, 0) :- !.
dine(P, Meals) :-
    forks(P, First, Second),
    take(First), take(Second),
    assertz_fact(meal(P)),
    assertz_fact(fork(First)), assertz_fact(fork(Second)),
    Left is Meals - 1,
    dine(P, Left).

% the forks of a philosopher, the one with the lower number first
forks(5, 1, 5) :- !.
forks(P, P, Next) :- Next is P + 1.

take(Fork) :- retract_fact(fork(Fork)), !.
