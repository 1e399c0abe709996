%% What a node asks of the log: kept until it is seen there, and sent again to whoever leads.
-module(imem_commands_tests).
-include_lib("eunit/include/eunit.hrl").
-include("../include/imem.hrl").

-define(K, 77).

%% The test stands for the server of Ra.
begun() -> begun(#{}).

begun(Origins) ->
    _ = catch imem_counts:new(),
    {Name, _} = imem_members:id(?K, node()),
    case process_info(self(), registered_name) of
        {_, Before} -> true = unregister(Before);
        [] -> ok
    end,
    true = register(Name, self()),
    _ = sent(),
    imem_commands:new(?K, {Origins, [node()]}).

query(Key) -> #query{from = self(), key = Key, asked = imem_lines:asked("count")}.

asked(Key, C) -> imem_commands:put({ask, [Key]}, [query(Key)], C).

sent() ->
    receive {'$gen_cast', {command, normal, {'$usr', {_, {_, _, Number}, What}, {notify, Number, _}}}} -> [{Number, What} | sent()]
    after 0 -> []
    end.

start() ->
    receive {'$gen_cast', {command, normal, {'$usr', {_, {_, Start, _}, _}, _}}} -> Start after 0 -> none end.

keys(Queries) -> [Key || #query{key = Key} <- Queries].

%% Timers of tests before this one change nothing.
again(C) ->
    receive {timeout, Timer, again} ->
        case imem_commands:again(Timer, C) of {is_heard, C} -> again(C); Other -> Other end
    after 20000 -> error(no_timer)
    end.

a_command_is_kept_until_it_is_seen_test() ->
    One = asked(a, begun()),
    Start = start(),
    Two = asked(b, One),
    ?assertEqual([{2, [b]}], sent()),
    ?assertEqual(2, imem_commands:held(Two)),
    {First, Three} = imem_commands:seen(Start, 1, Two),
    {Second, Four} = imem_commands:seen(Start, 2, Three),
    ?assertEqual({[a], [b], 0}, {keys(First), keys(Second), imem_commands:held(Four)}).

%% Not by a fixed clock: each time later, and by the time that commands take.
what_isnt_seen_is_sent_again_ever_more_seldom_test_() ->
    {timeout, 60, fun() ->
        C0 = asked(b, asked(a, begun())),
        [{1, _}, {2, _}] = sent(),
        Begin = erlang:monotonic_time(millisecond),
        {is_heard, C1} = again(C0),
        First = erlang:monotonic_time(millisecond) - Begin,
        ?assertEqual([{1, [a]}, {2, [b]}], sent()),
        {is_heard, C2} = again(C1),
        Second = erlang:monotonic_time(millisecond) - Begin - First,
        ?assertEqual([{1, [a]}, {2, [b]}], sent()),
        ?assert(First >= 390),      % Four times the first guess of 100 ms; however late it is, the next is twice as late.
        ?assert(Second >= 780),
        ?assertEqual(2, imem_commands:held(C2))
    end}.

%% Behind some repeats the leader counts as one that doesn't hear; what is seen meanwhile begins the while anew.
a_leader_that_takes_nothing_is_unheard_test_() ->
    {timeout, 120, fun() ->
        C0 = asked(b, asked(a, begun())),
        Start = start(),
        {is_heard, C1} = again(C0),
        {is_heard, C2} = again(C1),
        {[_], C3} = imem_commands:seen(Start, 1, C2),
        Begin = erlang:monotonic_time(millisecond),
        _ = until_unheard(C3),
        ?assert(erlang:monotonic_time(millisecond) - Begin > 5000)
    end}.

until_unheard(C) ->
    case again(C) of
        {is_heard, After} -> until_unheard(After);
        {unheard, After} -> After
    end.

what_is_seen_isnt_sent_again_test() ->
    C0 = asked(a, begun()),
    Start = start(),
    {[_], C1} = imem_commands:seen(Start, 1, C0),
    {is_heard, _} = again(C1),
    ?assertEqual([], sent()).

whoever_leads_is_named_and_asked_once_test() ->
    C0 = asked(b, asked(a, begun())),
    [_, _] = sent(),
    C1 = imem_commands:rejected({it, node()}, 2, C0),       % Not the oldest: it has been sent again.
    C2 = imem_commands:rejected(undefined, 1, C1),
    ?assertEqual([], sent()),
    C3 = imem_commands:rejected(imem_members:id(?K, node()), 1, C2),
    ?assertEqual([{1, [a]}, {2, [b]}], sent()),
    _ = imem_commands:rejected(imem_members:id(?K, node()), 1, C3),
    ?assertEqual([], sent()).

a_start_is_behind_each_before_test() ->
    Late = {erlang:system_time() + 1 bsl 60, 1},
    _ = asked(a, begun(#{node() => {Late, 5}})),
    ?assert(start() > Late).

%% The clock was set back, and the log has commands of a start that this one didn't know of.
a_start_that_was_passed_begins_anew_test() ->
    C0 = asked(b, asked(a, begun())),
    Mine = start(),
    _ = sent(),
    Later = {erlang:system_time() + 1 bsl 60, 1},
    {[], C1} = imem_commands:seen(Later, 4, C0),
    Start = start(),
    ?assert(Start > Later),
    {[], C2} = imem_commands:seen(Mine, 1, C1),
    {[A], C3} = imem_commands:seen(Start, 1, C2),
    {[B], _} = imem_commands:seen(Start, 2, C3),
    ?assertEqual([a, b], keys([A, B])).
