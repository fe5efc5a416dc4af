% The processor time of counting a number up by retract/1, is/2 and assertz/1, and that of one pass of a
% loop that does nothing, which the other has too. Both in nanoseconds.
:- initialization(main, main).
:- include(measure).

:- dynamic count/1.

count(0).

main :-
    measure(nothing, 4000000),
    measure(counter, 1000000).

loop(nothing, Count) :-
    between(1, Count, _),
    fail.
loop(counter, Count) :-
    between(1, Count, _),
    retract(count(N)),
    M is N + 1,
    assertz(count(M)),
    fail.
loop(_, _).
