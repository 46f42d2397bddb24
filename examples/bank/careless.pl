% Where nobody catches it, the broken assertion ends the program with status 2.
:- module(careless, [main/0]).
:- use_module(main, [careless/0]).
main :- careless.
