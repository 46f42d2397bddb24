% A pool of four workers. Each job is taken by one worker, whichever comes first; backtracking into retract_fact waits for the
% next job, and fails when the predicate is closed and no job is left. Whatever the schedule, the sum is the same.
:- module(main, [main/0], [concurrency]).

:- concurrent job/1.
:- concurrent result/2.

main :-
    start(4, Workers),
    post(1, 20),
    close_predicate(job(_)),
    wait(Workers),
    close_predicate(result(_, _)),
    findall(Square, result(_, Square), Squares),
    sum(Squares, 0, Sum),
    length(Squares, Jobs),
    write(Jobs), write(' jobs, sum '), write(Sum), nl.

start(0, []) :- !.
start(N, [Worker|Workers]) :- eng_call(work, create, create, Worker), M is N - 1, start(M, Workers).

wait([]).
wait([Worker|Workers]) :- eng_wait(Worker), wait(Workers).

post(I, Last) :- I > Last, !.
post(I, Last) :- assertz_fact(job(I)), J is I + 1, post(J, Last).

work :- retract_fact(job(N)), Square is N * N, assertz_fact(result(N, Square)), fail.
work.

sum([], Sum, Sum).
sum([N|Ns], Before, Sum) :- Now is Before + N, sum(Ns, Now, Sum).
