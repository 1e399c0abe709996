%% The machine of a module on several nodes: which commands act, and what its member is told.
-module(imem_machine_tests).
-include_lib("eunit/include/eunit.hrl").

-define(SIZES, ["--cells", "16"]).

new() -> imem_machine:init(#{replica => self_name()}).

%% The test stands for the replica.
self_name() ->
    case process_info(self(), registered_name) of
        {_, Name} -> Name;
        [] ->
            true = register(?MODULE, self()),
            ?MODULE
    end.

applied(Commands) -> applied(Commands, new()).

applied(Commands, S) ->
    Step = fun(Command, {Index, Before}) ->
        {After, ok} = imem_machine:apply(#{index => Index}, Command, Before),
        {Index + 1, After}
    end,
    {_, Last} = lists:foldl(Step, {1, S}, Commands),
    Last.

told() -> receive {'$gen_cast', What} -> [What | told()] after 0 -> [] end.

lines() -> [Lines || {lines, _, _, _, [_ | _] = Lines, _} <- told()].

each_command_acts_once_and_in_its_order_test() ->
    Ask = fun(N) -> {ask, {a, {1, 1}, N}, [integer_to_binary(N)]} end,
    Sizes = {sizes, {a, {1, 1}, 1}, ?SIZES},
    _ = applied([Ask(2), Sizes, Ask(3), Ask(2), Ask(2), Sizes, Ask(4), Ask(3), Ask(4)]),
    ?assertEqual([[<<"2">>], [<<"3">>], [<<"4">>]], lines()).

nodes_have_their_own_numbers_test() ->
    Ask = fun(Node, N) -> {ask, {Node, {1, 1}, N}, [atom_to_binary(Node)]} end,
    _ = applied([Ask(a, 1), Ask(b, 1), Ask(b, 2), Ask(a, 2)]),
    ?assertEqual([[<<"a">>], [<<"b">>], [<<"b">>], [<<"a">>]], lines()).

a_later_start_begins_anew_and_an_earlier_one_is_over_test() ->
    Ask = fun(Start, N, Line) -> {ask, {a, Start, N}, [Line]} end,
    _ = applied([Ask({5, 1}, 1, <<"x">>), Ask({5, 1}, 2, <<"y">>), Ask({6, 1}, 2, <<"no">>), Ask({6, 1}, 1, <<"z">>),
        Ask({5, 1}, 3, <<"no">>), Ask({5, 1}, 1, <<"no">>), Ask({6, 1}, 2, <<"w">>)]),
    ?assertEqual([[<<"x">>], [<<"y">>], [<<"z">>], [<<"w">>]], lines()).

the_first_sizes_are_the_logs_test() ->
    #{sizes := Sizes} = applied([{sizes, {a, {1, 1}, 1}, ?SIZES}, {sizes, {b, {1, 1}, 1}, ["--cells", "32"]}]),
    ?assertEqual(?SIZES, Sizes),
    ?assertEqual([?SIZES], [It || {begun, _, It} <- told()]).

%% An effect at a change of state ends a server of Ra.
a_change_of_state_has_no_effects_test() ->
    States = [recover, recovered, follower, pre_vote, candidate, leader, await_condition, receive_snapshot, eol],
    [?assertEqual([], imem_machine:state_enter(State, new())) || State <- States],
    ?assertMatch([{begin_with, _, #{base := none}}, {is, _, recovered} | _], told()).

a_snapshot_says_where_it_is_until_a_command_comes_behind_it_test() ->
    S = (new())#{base := {7, <<"image">>}, sizes := ?SIZES},
    [] = imem_machine:state_enter(recover, S),
    [] = imem_machine:state_enter(follower, S),
    ?assertMatch([{begin_with, _, #{base := {7, <<"image">>}, sizes := ?SIZES}}, {restored, _, 7}, {is, _, follower}], told()),
    #{base := none} = applied([{ask, {a, {1, 1}, 1}, [<<"x">>]}], S).

a_snapshot_is_of_its_own_line_test() ->
    Now = (new())#{origins := #{a => {{1, 1}, 9}}},
    {no_reply, none, log, [{release_cursor, 5, Then}]} =
        imem_machine:handle_aux(follower, cast, {snapshot, {5, <<"image">>}, #{a => {{1, 1}, 3}}}, none, log, Now),
    ?assertMatch(#{base := {5, <<"image">>}, origins := #{a := {{1, 1}, 3}}}, Then).

what_is_ras_own_changes_nothing_test() ->
    ?assertEqual(new(), applied([{down, self(), noproc}, {nodeup, a}, {machine_version, 0, 1}])).
