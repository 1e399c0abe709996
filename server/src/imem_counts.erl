%% What the server counts of itself since it started, for its metrics.
-module(imem_counts).
-export([new/0, add/1, add/2, value/1]).
-export_type([count/0]).

-type count() ::
    {starts | groups | asked | repeated | sent_again, Module :: non_neg_integer()}
    | {clients | refused_clients | let_go | wrong_lines, imem_lines:role()}.

%% The table is the caller's.
-spec new() -> ok.
new() ->
    _ = ets:new(?MODULE, [named_table, public, {write_concurrency, true}, {decentralized_counters, true}]),
    ok.

-spec add(count()) -> ok.
add(Count) -> add(Count, 1).

-spec add(count(), non_neg_integer()) -> ok.
add(Count, More) ->
    _ = ets:update_counter(?MODULE, Count, More, {Count, 0}),
    ok.

-spec value(count()) -> non_neg_integer().
value(Count) ->
    case ets:lookup(?MODULE, Count) of
        [{_, Number}] -> Number;
        [] -> 0
    end.
