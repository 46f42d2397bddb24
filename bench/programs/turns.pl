% Two goals hand SIZE facts to and fro; the other engines are parked all the time.
:- module(turns, [main/0], [concurrency]).
:- concurrent ping/1, pong/1.
main :- eng_call(answer, create, create, _), ask(1).
ask(I) :- I > SIZE, !, close_predicate(ping(_)), write(done), nl.
ask(I) :- assertz_fact(ping(I)), retract_fact(pong(I)), !, J is I + 1, ask(J).
answer :- retract_fact(ping(I)), assertz_fact(pong(I)), fail.
answer.
