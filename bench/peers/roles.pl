% RT0's four rules as a tabled program: in(Owner, Role, Who). The facts come from the file that the command line names.
:- set_prolog_flag(stack_limit, 8_000_000_000).
:- table in/3.
:- dynamic member/3, includes/4, linked/4, meet/4, part_entity/3, part_role/4, part_linked/5, question/3.

in(A, R, D) :- member(A, R, D).
in(A, R, D) :- includes(A, R, B, S), in(B, S, D).
in(A, R, D) :- linked(A, R, S, T), in(A, S, B), in(B, T, D).
in(A, R, D) :- meet(A, R, N, K), in_parts(0, K, N, D).

% D is in all parts from the I-th on
in_parts(K, K, _, _) :- !.
in_parts(I, K, N, D) :- in_part(N, I, D), J is I + 1, in_parts(J, K, N, D).

in_part(N, I, D) :- part_entity(N, I, D).
in_part(N, I, D) :- part_role(N, I, B, S), in(B, S, D).
in_part(N, I, D) :- part_linked(N, I, A, S, T), in(A, S, B), in(B, T, D).

answer :-
    current_prolog_flag(argv, Words),
    last(Words, File),
    load_files(File, []),
    forall(( question(Q, A, R), in(A, R, D) ), format("~w ~w~n", [Q, D])).
