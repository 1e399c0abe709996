%% A histogram: the counters are filled with zeros, 16 a round; then each round counts so many words. Counters are taken
%% in rising order, and each is put back before the next one is waited for, so elements never wait in a circle.
-module(imem_histogram).
-behaviour(imem_program).
-export([block/1, rounds/3, written/3]).

-type arguments() :: {Counters :: pos_integer(), Rounds :: non_neg_integer(), Words :: pos_integer()}.

-spec block(arguments()) -> {m, pos_integer()}.
block({Counters, _, _}) -> {m, Counters}.

-spec rounds(imem_lines:element(), pos_integer(), arguments()) -> imem_program:rounds().
rounds(E, Many, {Counters, Rounds, Words}) ->
    Fill = [{[], [{put, A} || A <- Part]} || Part <- parts(lists:seq(E - 1, Counters - 1, Many))],
    Counted = fun(R) -> lists:usort([(E + 7 * R + 11 * X) rem Counters || X <- lists:seq(0, Words - 1)]) end,
    Count = [Counted(R) || R <- lists:seq(1, Rounds)],
    Fill ++ [{[{take, A} || A <- Part], [{put, A} || A <- Part]} || Part <- Count].

parts(List) when length(List) =< 16 -> [List];
parts(List) -> {Part, Rest} = lists:split(16, List), [Part | parts(Rest)].

-spec written(arguments(), none | non_neg_integer(), none | non_neg_integer()) -> non_neg_integer().
written(_, none, _) -> 0;
written(_, Count, _) when is_integer(Count) -> Count + 1.
