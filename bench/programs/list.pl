% A list of SIZE elements is built, walked and measured.
:- module(list, [main/0]).
main :- build(SIZE, L), walk(L), length(L, N), write(N), nl.
build(0, []) :- !.
build(N, [N|T]) :- M is N - 1, build(M, T).
walk([]).
walk([_|T]) :- walk(T).
