%% A program of elements that adds one to each counter in each round, and tells its test when it is through.
-module(imem_counting).
-behaviour(imem_program).
-export([block/1, rounds/3, written/3, ended/3, send/2]).

-type arguments() :: {pid() | none, Counters :: pos_integer(), Rounds :: pos_integer()}.

-spec block(arguments()) -> {m, pos_integer()}.
block({_, Counters, _}) -> {m, Counters}.

-spec rounds(imem_lines:element(), pos_integer(), arguments()) -> imem_program:rounds().
rounds(E, _, {_, Counters, Rounds}) ->
    Cells = lists:seq(0, Counters - 1),
    [{[], [{put, A} || A <- Cells, E =:= 1]} | [{[{take, A} || A <- Cells], [{put, A} || A <- Cells]} || _ <- lists:seq(1, Rounds)]].

-spec written(arguments(), none | non_neg_integer(), none | non_neg_integer()) -> non_neg_integer().
written(_, none, _) -> 0;
written(_, Count, _) -> Count + 1.

-spec ended(imem_lines:element(), imem_element:report(), arguments()) -> ok.
ended(_, _, {none, _, _}) -> ok;
ended(E, _, {Test, _, _}) ->
    Test ! {ended, E},
    ok.

%% Of fifty messages one is lost, and one comes twice.
-spec send({atom(), node()} | pid(), term()) -> ok.
send(Where, Message) ->
    case rand:uniform(50) of
        1 -> ok;
        2 -> imem_config:send(Where, Message), imem_config:send(Where, Message);
        _ -> imem_config:send(Where, Message)
    end.
