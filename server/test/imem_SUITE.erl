%% The server over a false program (`false_program`), which answers well, hangs, ends, or answers twice.
-module(imem_SUITE).
-include_lib("common_test/include/ct.hrl").
-include_lib("stdlib/include/assert.hrl").
-compile([export_all, nowarn_export_all]).

all() -> [
    answers_come_in_the_order_of_the_lines,
    nobody_ends_or_shifts_the_answers_of_others,
    a_value_goes_to_whoever_asked_last,
    a_killed_program_is_not_noticed,
    a_wait_is_answered_though_its_program_was_killed,
    a_program_that_hangs_is_killed,
    a_program_that_hangs_as_it_opens_is_killed,
    a_program_that_answers_twice_stops_its_module,
    an_image_refused_for_good_stays_away,
    an_image_in_use_is_tried_again,
    a_slow_reader_is_let_go_and_no_other,
    an_endless_line_is_one_error,
    clients_have_a_bound,
    a_socket_has_its_mode_and_replaces_an_old_one,
    what_a_client_sent_before_its_end_is_answered,
    a_socket_is_of_one_module,
    a_user_has_elements,
    metrics_and_health,
    a_slow_module_is_asked_again_by_its_own_time,
    elements_count_exactly
].

init_per_testcase(_, Config) -> [{folder, ?config(priv_dir, Config)} | Config].

end_per_testcase(_, _) ->
    _ = application:stop(imem_server),
    ok.

%% ---- Help

image(Name, Config) -> filename:join(?config(folder, Config), Name ++ ".img").

socket(Name) -> "/tmp/imem-" ++ os:getpid() ++ "-" ++ Name.

start(Name, Does, More, Config) ->
    Image = image(Name, Config),
    ok = file:write_file(Image, <<>>),
    ok = file:write_file(Image ++ ".does", Does),
    _ = application:load(imem_server),
    [application:unset_env(imem_server, Key) || {Key, _} <- application:get_all_env(imem_server)],
    Given = [
        {imem, filename:join(filename:dirname(code:which(?MODULE)), "false_program")},
        {modules, [#{image => Image}]},
        {listeners, [#{at => {unix, socket(Name)}}]}
    ],
    All = lists:foldl(fun({Key, Value}, Sum) -> lists:keystore(Key, 1, Sum, {Key, Value}) end, Given, More),
    [application:set_env(imem_server, Key, Value) || {Key, Value} <- All],
    {ok, _} = application:ensure_all_started(imem_server),
    Image.

%% A node that has an element goes on, though no module of it can be opened.
still() -> #{number => 1, program => {imem_still, none}, elements => [{1, [node()]}]}.

connect(Name) ->
    {ok, Socket} = gen_tcp:connect({local, socket(Name)}, 0, [binary, {packet, line}, {active, false}, {buffer, 70000}]),
    Socket.

say(Socket, Lines) -> ok = gen_tcp:send(Socket, [[Line, $\n] || Line <- Lines]).

hear(Socket, Number) ->
    [begin {ok, Line} = gen_tcp:recv(Socket, 0, 8000), string:trim(Line, trailing) end || _ <- lists:seq(1, Number)].

asked(Socket, Lines) ->
    say(Socket, Lines),
    hear(Socket, length(Lines)).

kill_program(Image) -> os:cmd("pkill -KILL -f 'serve " ++ Image ++ "'").

until(Is) -> until(Is, 200).

until(Is, 0) -> ?assert(Is());
until(Is, Left) ->
    case Is() of
        true -> ok;
        false -> timer:sleep(25), until(Is, Left - 1)
    end.

%% ---- Tests

answers_come_in_the_order_of_the_lines(Config) ->
    start("order", "slow 2", [], Config),
    One = connect("order"),
    ?assertEqual([<<"0.1 base 0">>, <<"error 2: 'x', where E.N, collect, entry, confirm, window, cell, block, stat, room, turn, count, about, "
        "backup, help or quit is expected">>, <<"0.2 stored">>, <<"count 2">>], asked(One, ["0.1 alloc m 4", "x", "0.2 put 0 7", "count"])),
    Lines = [[integer_to_list(N), ".1 fetch ", integer_to_list(N + 8)] || N <- lists:seq(1, 15)],
    ?assertEqual([iolist_to_binary([integer_to_list(N), ".1 waiting"]) || N <- lists:seq(1, 15)], asked(One, Lines)).

nobody_ends_or_shifts_the_answers_of_others(Config) ->
    start("shift", "", [], Config),
    [One, Other, Third] = [connect("shift") || _ <- [1, 2, 3]],
    say(Other, ["count\rcell 0", "quit now", "1.1 take 0 quit", "\0"]),
    ?assertEqual([<<"2 window 1 1">>], asked(One, ["window 2"])),
    ?assertMatch([<<"error 1:", _/binary>>, <<"error 2:", _/binary>>, <<"error 3:", _/binary>>, <<"error 4:", _/binary>>], hear(Other, 4)),
    say(Other, ["quit", "count"]),
    ?assertEqual({error, closed}, gen_tcp:recv(Other, 0, 5000)),
    ?assertEqual([<<"3 window 1 1">>, <<"count 0">>], asked(Third, ["window 3", "count"])).

a_value_goes_to_whoever_asked_last(Config) ->
    start("last", "", [], Config),
    [One, Other, Third] = [connect("last") || _ <- [1, 2, 3]],
    [_] = asked(One, ["0.1 alloc m 2"]),
    ?assertEqual([<<"1.1 waiting">>], asked(One, ["1.1 take 0"])),
    ?assertEqual([<<"1.1 waiting">>], asked(Other, ["1.1 take 0"])),
    ?assertEqual([<<"2.1 stored">>], asked(Third, ["2.1 put 0 5"])),
    ?assertEqual([<<"1.1 now value 5">>], hear(Other, 1)),
    ?assertEqual([<<"count 3">>], asked(One, ["count"])).

a_killed_program_is_not_noticed(Config) ->
    Image = start("killed", "slow 5", [], Config),
    One = connect("killed"),
    [_, _] = asked(One, ["0.1 alloc m 2", "0.2 put 0 0"]),
    Killer = spawn_link(fun Kill() -> timer:sleep(500), kill_program(Image), Kill() end),
    Add = fun(N, Value) ->
        [E1, E2] = [["1.", integer_to_list(N + At)] || At <- [0, 1]],
        Told = [iolist_to_binary([E1, " value ", integer_to_list(Value)])],
        ?assertEqual(Told, asked(One, [[E1, " take 0"]])),
        [_, _] = asked(One, [[E2, " put 0 ", integer_to_list(Value + 1)], ["confirm 1 ", integer_to_list(N + 2)]])
    end,
    [Add(2 * At + 1, At) || At <- lists:seq(0, 99)],
    unlink(Killer),
    exit(Killer, kill),
    ?assert(imem_counts:value({starts, 0}) > 2).

a_wait_is_answered_though_its_program_was_killed(Config) ->
    Image = start("wait", "", [], Config),
    [One, Other] = [connect("wait") || _ <- [1, 2]],
    ?assertEqual([<<"0.1 base 0">>, <<"1.1 waiting">>], asked(One, ["0.1 alloc m 2", "1.1 take 0"])),
    kill_program(Image),
    ?assertEqual([<<"2.1 stored">>], asked(Other, ["2.1 put 0 9"])),
    ?assertEqual([<<"1.1 now value 9">>], hear(One, 1)).

a_program_that_hangs_is_killed(Config) ->
    Image = start("hangs", "hangs later", [{answers_within, 300}], Config),
    One = connect("hangs"),
    say(One, ["count"]),
    until(fun() -> imem_counts:value({starts, 0}) > 1 end),
    ok = file:write_file(Image ++ ".does", ""),
    ?assertEqual([<<"count 0">>], hear(One, 1)).

a_program_that_hangs_as_it_opens_is_killed(Config) ->
    Image = start("opens", "hangs", [{answers_within, 300}], Config),
    One = connect("opens"),
    ok = file:write_file(Image ++ ".does", ""),
    ?assertEqual([<<"count 0">>], asked(One, ["count"])).

a_program_that_answers_twice_stops_its_module(Config) ->
    start("twice", "twice", [{cluster, still()}], Config),
    One = connect("twice"),
    say(One, ["count", "count"]),
    until(fun() -> imem_module_sup:is_over(0) end),
    ?assertMatch({error, closed}, gone(One)).

gone(Socket) ->
    case gen_tcp:recv(Socket, 0, 8000) of
        {ok, _} -> gone(Socket);
        Other -> Other
    end.

an_image_refused_for_good_stays_away(Config) ->
    start("refused", "ends 5", [{cluster, still()}], Config),
    One = connect("refused"),
    ?assertEqual([<<"refused 13 NoHeader">>], lists:sublist(hear(One, 1), 1)),
    until(fun() -> imem_module_sup:is_over(0) end),
    Other = connect("refused"),
    ?assertMatch([<<"error 0: the module can't be opened">>], hear(Other, 1)).

an_image_in_use_is_tried_again(Config) ->
    Image = start("in_use", "ends 4", [], Config),
    One = connect("in_use"),
    say(One, ["count"]),
    until(fun() -> imem_counts:value({starts, 0}) > 1 end),
    ok = file:write_file(Image ++ ".does", ""),
    ?assertEqual([<<"count 0">>], hear(One, 1)).

a_slow_reader_is_let_go_and_no_other(Config) ->
    start("slow", "", [{listeners, [#{at => {unix, socket("slow")}, patience => 300, lines => 64}]}], Config),
    [Slow, One] = [connect("slow") || _ <- [1, 2]],
    ok = inet:setopts(Slow, [{send_timeout, 200}]),
    Talk = fun Talk() -> case gen_tcp:send(Slow, binary:copy(<<"about\n">>, 2000)) of ok -> Talk(); {error, _} -> ok end end,
    Talk(),
    until(fun() -> imem_counts:value({let_go, full}) =:= 1 end),
    ?assertEqual([<<"count 0">>], asked(One, ["count"])).

an_endless_line_is_one_error(Config) ->
    start("endless", "", [], Config),
    One = connect("endless"),
    [ok = gen_tcp:send(One, binary:copy(<<"x">>, 10000)) || _ <- lists:seq(1, 50)],
    ?assertEqual([<<"error 1: the line is too long">>], hear(One, 1)),
    ?assertEqual([<<"count 0">>], asked(One, ["\ncount"])).

clients_have_a_bound(Config) ->
    start("bound", "", [{listeners, [#{at => {unix, socket("bound")}, clients => 2}]}], Config),
    [One, Other] = [connect("bound") || _ <- [1, 2]],
    [[<<"count 0">>], [<<"count 0">>]] = [asked(It, ["count"]) || It <- [One, Other]],
    ?assertEqual([<<"error 0: this socket has 2 clients">>], hear(connect("bound"), 1)),
    ok = gen_tcp:close(Other),
    until(fun() -> imem_listener_sup:count({unix, socket("bound")}) =:= 1 end),
    ?assertEqual([<<"count 0">>], asked(connect("bound"), ["count"])).

a_socket_has_its_mode_and_replaces_an_old_one(Config) ->
    Path = socket("mode"),
    {ok, Old} = gen_tcp:listen(0, [{ifaddr, {local, Path}}]),
    ok = gen_tcp:close(Old),
    start("mode", "", [], Config),
    {ok, Info} = file:read_file_info(Path),
    ?assertEqual(8#660, element(8, Info) band 8#777),
    ?assertEqual([<<"count 0">>], asked(connect("mode"), ["count"])).

what_a_client_sent_before_its_end_is_answered(Config) ->
    start("half", "slow 20", [], Config),
    One = connect("half"),
    say(One, ["0.1 alloc m 1", "0.2 put 0 1", "count"]),
    ok = gen_tcp:shutdown(One, write),
    ?assertEqual([<<"0.1 base 0">>, <<"0.2 stored">>, <<"count 2">>], hear(One, 3)),
    ?assertEqual({error, closed}, gen_tcp:recv(One, 0, 5000)).

a_socket_is_of_one_module(Config) ->
    Other = image("other", Config),
    ok = file:write_file(Other, <<>>),
    start("one", "", [
        {modules, [#{image => image("one", Config)}, #{module => 1, image => Other}]},
        {listeners, [#{at => {unix, socket("one")}}, #{at => {unix, socket("two")}, module => 1}]}
    ], Config),
    ?assertEqual([<<"0.1 base 0">>, <<"count 1">>], asked(connect("one"), ["0.1 alloc m 1", "count"])),
    ?assertEqual([<<"count 0">>], asked(connect("two"), ["count"])).

a_user_has_elements(Config) ->
    {User, _} = string:to_integer(os:cmd("id -u")),
    Bound = #{at => {unix, socket("user")}, elements => {by_user, #{User => [3]}}},
    Unknown = #{at => {unix, socket("unknown")}, elements => {by_user, #{User + 1 => [3]}}},
    start("user", "", [{listeners, [Bound, Unknown]}], Config),
    ?assertEqual([<<"3 window 1 1">>, <<"error 2: element 4 isn't one of this client's">>], asked(connect("user"), ["window 3", "window 4"])),
    ?assertEqual([<<"error 1: element 3 isn't one of this client's">>, <<"count 0">>], asked(connect("unknown"), ["window 3", "count"])).

metrics_and_health(Config) ->
    Port = 20000 + rand:uniform(20000),
    Image = start("metrics", "", [{metrics, {{127, 0, 0, 1}, Port}}], Config),
    [_, _, _] = asked(connect("metrics"), ["0.1 alloc m 1", "1.1 take 0", "what"]),
    Get = fun(Path) ->
        {ok, {{_, Status, _}, _, Body}} = httpc:request("http://127.0.0.1:" ++ integer_to_list(Port) ++ Path),
        {Status, Body}
    end,
    ?assertEqual({200, "well\n"}, Get("/health")),
    {200, Metrics} = Get("/metrics"),
    [?assertNotEqual(nomatch, string:find(Metrics, Line)) || Line <- ["imem_up{module=\"0\"} 1\n", "imem_commands_total{module=\"0\"} 2\n",
        "imem_clients{role=\"full\"} 1\n", "imem_wrong_lines_total{role=\"full\"} 1\n", "imem_starts_total{module=\"0\"} 1\n"]],
    ok = file:write_file(Image ++ ".does", "hangs"),
    kill_program(Image),
    ?assertEqual({503, "module 0 doesn't answer\n"}, Get("/health")).

%% By a fixed clock it would get all that stands in its pipe again and again.
a_slow_module_is_asked_again_by_its_own_time(Config) ->
    Cluster = #{number => 5, program => {imem_counting, {self(), 4, 3}}, elements => [{E, [node()]} || E <- [1, 2]]},
    start("slower", "slow 300", [{cluster, Cluster}], Config),
    [receive {ended, E} -> ok after 60000 -> ct:fail({not_done, E}) end || E <- [1, 2]],
    [Asked, Repeated] = [imem_counts:value({Which, 0}) || Which <- [asked, repeated]],
    ?assert(4 * Repeated < Asked, {Repeated, Asked}).

%% Three elements count in eight counters, while messages are lost, and the program is killed.
elements_count_exactly(Config) ->
    Cluster = #{number => 5, program => {imem_counting, {self(), 8, 6}}, elements => [{E, [node()]} || E <- [1, 2, 3]]},
    Image = start("elements", "", [{cluster, Cluster}, {repeats_waiting, 300}, {send, {imem_counting, send}}], Config),
    Killer = spawn_link(fun Kill() -> timer:sleep(500), kill_program(Image), Kill() end),
    [receive {ended, E} -> ok after 60000 -> ct:fail({not_done, E}) end || E <- [1, 2, 3]],
    unlink(Killer),
    exit(Killer, kill),
    One = connect("elements"),
    Wanted = [iolist_to_binary(["cell ", integer_to_list(3 + A), " m full 18"]) || A <- lists:seq(0, 7)],
    ?assertEqual(Wanted, asked(One, [["cell ", integer_to_list(3 + A)] || A <- lists:seq(0, 7)])).
