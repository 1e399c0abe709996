%% A program of elements that asks nothing.
-module(imem_still).
-behaviour(imem_program).
-export([block/1, rounds/3, written/3]).

-spec block(none) -> {m, 1}.
block(none) -> {m, 1}.

-spec rounds(imem_lines:element(), pos_integer(), none) -> [].
rounds(_, _, none) -> [].

-spec written(none, none, none) -> 0.
written(none, none, none) -> 0.
