% Accounts as facts. Whoever takes the fact of an account has it alone until it is put back, so that no transfer is lost. The
% assertions are tested at each call while the program runs: a negative amount throws rtcheck(calls, P, K), where K is the number
% of the assertion of P that is broken. A transfer that is refused this way is caught and told; the sum of all accounts stays.
:- module(main, [main/0, careless/0], [concurrency, assertions, rtchecks, regtypes]).

:- concurrent account/2.

account(ann, 100).
account(bob, 100).
account(eve, 100).

:- regtype amount/1.
amount(X) :- nnegint(X).

:- regtype name/1.
name(ann).
name(bob).
name(eve).

:- pred transfer(From, To, Amount) : (name(From), name(To), amount(Amount)).

transfer(From, To, Amount) :-
    change(From, 0 - Amount),
    change(To, Amount).

:- pred change(Name, By) : name(Name).

change(Name, By) :-
    retract_fact(account(Name, Old)), !,
    New is Old + By,
    assertz_fact(account(Name, New)).

main :-
    eng_call(teller([t(ann, bob, 30), t(bob, eve, 5)]), create, create, A),
    eng_call(teller([t(eve, ann, 20), t(bob, ann, -7), t(ann, eve, 1)]), create, create, B),
    eng_wait(A), eng_wait(B),
    close_predicate(account(_, _)),
    told(ann), told(bob), told(eve),
    findall(X, account(_, X), Xs), sum(Xs, 0, Sum),
    write(sum(Sum)), nl.

teller([]).
teller([t(From, To, Amount)|More]) :-
    catch(transfer(From, To, Amount), rtcheck(Which, P, K), (writeq(refused(Amount, Which, P, K)), nl)),
    teller(More).

told(Name) :- account(Name, X), !, write(Name), write(': '), write(X), nl.

sum([], Sum, Sum).
sum([X|Xs], Before, Sum) :- Now is Before + X, sum(Xs, Now, Sum).

careless :- transfer(ann, bob, -7).
