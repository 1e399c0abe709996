%% A wavefront: each cell is the sum of those above and to the left of it. A round is a row.
-module(imem_wavefront).
-behaviour(imem_program).
-export([block/1, rounds/3, written/3]).

-type arguments() :: {Length :: pos_integer()}.

-spec block(arguments()) -> {i, pos_integer()}.
block({Length}) -> {i, Length * Length}.

-spec rounds(imem_lines:element(), pos_integer(), arguments()) -> imem_program:rounds().
rounds(E, Many, {Length}) ->
    Columns = lists:seq(0, Length - 1),
    [{[{fetch, (Row - 1) * Length + X} || Row > 0, X <- Columns], [{store, Row * Length + X} || X <- Columns]}
        || Row <- lists:seq(E - 1, Length - 1, Many)].

-spec written(arguments(), none | non_neg_integer(), none | non_neg_integer()) -> non_neg_integer().
written(_, none, none) -> 1;
written(_, none, Left) -> Left;
written(_, Above, none) -> Above;
written(_, Above, Left) -> (Above + Left) rem 1000003.
