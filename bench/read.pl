% Reads a file clause by clause, and prints how many clauses it has and the processor time of that.
:- initialization(main, main).

main([File]) :-
    statistics(cputime, Start),
    setup_call_cleanup(open(File, read, Stream), count(Stream, Clauses), close(Stream)),
    statistics(cputime, End),
    Microseconds is round((End - Start) * 1000000),
    format("~d clauses~n~d microseconds~n", [Clauses, Microseconds]).

% A loop by failure, which leaves no garbage.
count(Stream, Clauses) :-
    Counter = count(0),
    repeat,
    read_term(Stream, Term, []),
    (   Term == end_of_file
    ->  !,
        arg(1, Counter, Clauses)
    ;   arg(1, Counter, Before),
        Now is Before + 1,
        nb_setarg(1, Counter, Now),
        fail
    ).
