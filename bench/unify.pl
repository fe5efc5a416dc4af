% The processor time of one unification by unify_with_occurs_check/2, in four cases, and that of one
% pass of a loop that does nothing, which each of them has too. All in nanoseconds.
:- initialization(main, main).
:- include(measure).

main :-
    measure(nothing, 4000000),
    measure(fresh, 2000000),
    measure(reused, 2000000),
    measure(chains, 100000),
    measure(clash, 4000000).

% Each loop goes on by failure, which undoes what was bound.
loop(nothing, Count) :-
    between(1, Count, _),
    fail.
loop(fresh, Count) :-
    between(1, Count, _),
    unify_with_occurs_check(f(X, g(_, a), X), f(b, g(c, a), b)),
    fail.
loop(reused, Count) :-
    unify(f(X, g(_, a), X), f(b, g(c, a), b), Count).
loop(chains, Count) :-
    chain(128, Left),
    chain(128, Right),
    unify(Left, Right, Count).
loop(clash, Count) :-
    unify(f(X, g(_, a), X), h(b, g(c, a), b), Count).
loop(_, _).

unify(Left, Right, Count) :-
    between(1, Count, _),
    unify_with_occurs_check(Left, Right),
    fail.

% A chain of so many variables: each but the last is f(Next, Next).
chain(1, _) :- !.
chain(Length, f(Next, Next)) :-
    Rest is Length - 1,
    chain(Rest, Next).
