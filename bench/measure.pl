% Times a loop of a case: loop(Case, Count) makes so many passes.

% Prints the case, and the nanoseconds of processor time that one pass takes.
measure(Case, Count) :-
    statistics(cputime, Start),
    loop(Case, Count),
    statistics(cputime, End),
    Nanoseconds is (End - Start) * 1000000000 / Count,
    format("~w ~2f~n", [Case, Nanoseconds]).
