% RT0's four rules as an answer set program: in(Owner, Role, Who).
in(A, R, D) :- member(A, R, D).
in(A, R, D) :- includes(A, R, B, S), in(B, S, D).
in(A, R, D) :- linked(A, R, S, T), in(A, S, B), in(B, T, D).
in(A, R, D) :- meet(A, R, N, K), in_parts(N, K - 1, D).

% D is in all parts up to the I-th
in_parts(N, 0, D) :- in_part(N, 0, D).
in_parts(N, I + 1, D) :- in_parts(N, I, D), in_part(N, I + 1, D).

in_part(N, I, D) :- part_entity(N, I, D).
in_part(N, I, D) :- part_role(N, I, B, S), in(B, S, D).
in_part(N, I, D) :- part_linked(N, I, A, S, T), in(A, S, B), in(B, T, D).

answer(Q, D) :- question(Q, A, R), in(A, R, D).
#show answer/2.
#defined member/3. #defined includes/4. #defined linked/4. #defined meet/4.
#defined part_entity/3. #defined part_role/4. #defined part_linked/5. #defined question/3.
