%% A module on three nodes, each a node of Erlang on a loopback address, over a false program (`false_program`). Members
%% and programs end, are halted and are parted; all images have to be alike at the end.
-module(imem_replica_SUITE).
-include_lib("common_test/include/ct.hrl").
-include_lib("stdlib/include/assert.hrl").
-include("../include/imem.hrl").
-compile([export_all, nowarn_export_all]).

-define(EVERY, 40).

all() -> [
    members_answer_alike,
    what_is_asked_twice_enters_the_log_once,
    no_line_ends_or_shifts_the_members,
    a_killed_program_is_not_noticed,
    a_member_that_was_away_is_alike_again,
    a_member_whose_names_were_not_kept_goes_on,
    a_member_behind_a_snapshot_starts_again,
    a_member_that_is_sent_a_snapshot_as_it_runs_starts_again,
    a_node_that_lost_its_disk_is_refused_and_replaced,
    a_host_of_another_name_takes_the_place_of_a_lost_one,
    a_fault_of_one_node_is_told_to_nobody,
    a_member_that_is_halted_is_left_for_another,
    a_leader_that_is_halted_is_replaced,
    a_leader_that_takes_nothing_is_replaced,
    without_a_majority_nothing_is_answered,
    other_sizes_are_refused,
    a_backup_is_of_one_member,
    metrics_are_of_one_member,
    a_value_is_told_once_though_two_members_know_it,
    elements_count_exactly
].

suite() -> [{timetrap, {minutes, 20}}].

init_per_suite(Config) ->
    case code:which(ra) of
        non_existing -> {skip, "there is no Ra: rabbitmq-server"};
        _ -> Config
    end.

end_per_suite(_) -> ok.

init_per_testcase(Name, Config) ->
    Folder = filename:join("/tmp", "imem-" ++ os:getpid() ++ "-" ++ integer_to_list(erlang:unique_integer([positive]))),
    [ok = filelib:ensure_path(filename:join([Folder, At, Of])) || At <- ["0", "1", "2", "3"], Of <- ["log", "memory", "backups"]],
    put(cluster, #{folder => Folder, port => 20000 + rand:uniform(20000), name => Name}),
    [{folder, Folder} | Config].

end_per_testcase(_, Config) ->
    _ = [catch peer:stop(Peer) || Peer <- erase_peers()],
    _ = os:cmd("pkill -KILL -f 'serve " ++ ?config(folder, Config) ++ "'"),
    file:del_dir_r(?config(folder, Config)).

%% ---- Help

node_of(At) -> list_to_atom("r" ++ integer_to_list(At) ++ "@127.0.67." ++ integer_to_list(10 + At)).

of_node(At, Of) -> filename:join([map_get(folder, get(cluster)), integer_to_list(At), Of]).

socket(At) -> of_node(At, "socket").

environment(At, More) ->
    Base = #{module => 0, nodes => [node_of(It) || It <- [0, 1, 2]], snapshot_every => ?EVERY,
        sizes => ["--cells", "64"], backups => of_node(At, "backups"), env => [{"FALSE_DOES", of_node(At, "does")}]},
    {Of, Others} = case lists:keytake(module, 1, More) of
        {value, {module, Words}, Rest} -> {maps:merge(Base, Words), Rest};
        false -> {Base, More}
    end,
    [{imem, filename:join(filename:dirname(code:which(?MODULE)), "false_program")}, {log, of_node(At, "log")},
        {memory, of_node(At, "memory")}, {modules, [Of]}, {listeners, [
            #{at => {unix, socket(At)}}, #{at => {unix, socket(At) ++ "-backup"}, role => backup}]} | Others].

%% Starts a node, with its server.
start(At) -> start(At, []).

start(At, More) ->
    #{port := Port} = get(cluster),
    Address = "127.0.67." ++ integer_to_list(10 + At),
    Words = ["-start_epmd", "false", "-erl_epmd_port", integer_to_list(Port), "-setcookie", "imem", "-connect_all", "false",
        "-kernel", "inet_dist_use_interface", "{127,0,67," ++ integer_to_list(10 + At) ++ "}", "logger_level", "error",
        "-kernel", "inet_dist_connect_options", "[{ip,{127,0,67," ++ integer_to_list(10 + At) ++ "}}]",
        "-aten", "poll_interval", "300", "+S", "2:2", "-pa" | code:get_path()],
    {ok, Peer, _} = peer:start(#{name => "r" ++ integer_to_list(At), host => Address, longnames => true,
        connection => standard_io, args => Words, wait_boot => 240000}),
    put({peer, At}, Peer),
    put({pid, At}, call(At, os, getpid, [])),
    _ = call(At, application, load, [imem_server]),
    [ok = call(At, application, set_env, [imem_server, Key, Value]) || {Key, Value} <- environment(At, More)],
    {ok, _} = call(At, application, ensure_all_started, [imem_server]),
    ok.

named(At) -> ok = imem_members:make(#{log => of_node(At, "log")}).

start_all() -> start_all([]).

start_all(More) ->
    [named(At) || At <- [0, 1, 2]],
    [start(At, More) || At <- [0, 1, 2]],
    [is_open(At) || At <- [0, 1, 2]].

call(At, Module, Function, Arguments) -> peer:call(get({peer, At}), Module, Function, Arguments, 30000).

kill(At) ->
    Peer = erase({peer, At}),
    Pid = erase({pid, At}),
    _ = os:cmd("kill -KILL " ++ Pid),
    until(fun() -> not filelib:is_dir("/proc/" ++ Pid) end),
    _ = catch peer:stop(Peer),
    _ = os:cmd("pkill -KILL -f 'serve " ++ of_node(At, "memory") ++ "'"),
    ok.

erase_peers() -> [Peer || At <- [0, 1, 2, 3], Peer <- [erase({peer, At})], Peer =/= undefined].

status(At) ->
    case catch call(At, gen_server, call, [imem_module_0, status, 5000]) of
        #{} = Status -> Status;
        _ -> #{at => 0, phase => away, leads => false}
    end.

is_open(At) -> until(fun() -> map_get(phase, status(At)) =:= open end).

%% A node that has nothing else to do ends.
is_over(At) ->
    case catch call(At, imem_module_sup, is_over, [0]) of
        false -> false;
        _ -> true
    end.

leader() ->
    until(fun() -> lists:any(fun(At) -> map_get(leads, status(At)) end, [0, 1, 2]) end),
    hd([At || At <- [0, 1, 2], map_get(leads, status(At))]).

program(At) -> string:trim(os:cmd("pgrep -f 'serve " ++ of_node(At, "memory") ++ "'")).

connect(At) ->
    {ok, Socket} = gen_tcp:connect({local, socket(At)}, 0, [binary, {packet, line}, {active, false}, {buffer, 70000}]),
    Socket.

asked(Socket, Lines) ->
    ok = gen_tcp:send(Socket, [[Line, $\n] || Line <- Lines]),
    hear(Socket, length(Lines)).

hear(Socket, Number) ->
    [begin {ok, Line} = gen_tcp:recv(Socket, 0, 40000), string:trim(Line, trailing) end || _ <- lists:seq(1, Number)].

%% Adds to a counter so often, by one element's take and put.
count(Socket, E, From, Number) ->
    lists:foreach(fun(At) ->
        [Take, Put, Next] = [integer_to_list(2 * At + More) || More <- [1, 2, 3]],
        [Taken] = asked(Socket, [[E, ".", Take, " take 0"]]),
        Value = binary_to_integer(lists:last(binary:split(Taken, <<" ">>, [global]))),
        [_, _] = asked(Socket, [[E, ".", Put, " put 0 ", integer_to_list(Value + 1)], ["confirm ", E, " ", Next]])
    end, lists:seq(From, From + Number - 1)).

%% What a member's image tells.
memory(At) ->
    {ok, Config} = imem_config:checked(environment(At, [])),
    Lines = ["cell 0", "cell 1", "count"] ++ ["window " ++ integer_to_list(E) || E <- lists:seq(0, 4)],
    call(At, imem_module, looked, [0, Lines, 5000, Config#{modules := #{0 => #{nodes => [node_of(At)]}}}]).

are_alike() -> are_alike([0, 1, 2]).

are_alike(Members) ->
    until(fun() ->
        case lists:usort([catch memory(At) || At <- Members]) of
            [{ok, _}] -> true;
            _ -> false
        end
    end).

until(Is) -> until(Is, 800).

until(Is, 0) -> ?assert(Is());
until(Is, Left) ->
    case Is() of
        true -> ok;
        false -> timer:sleep(50), until(Is, Left - 1)
    end.

begun() ->
    One = connect(0),
    [<<"0.1 base 0">>, <<"0.2 stored">>] = asked(One, ["0.1 alloc m 4", "0.2 put 0 0"]),
    One.

%% ---- Tests

members_answer_alike(_) ->
    start_all(),
    One = begun(),
    [Other, Third] = [connect(At) || At <- [1, 2]],
    ?assertEqual([<<"1.1 value 0">>], asked(Other, ["1.1 take 0"])),
    ?assertEqual([<<"2.1 waiting">>], asked(Third, ["2.1 take 0"])),
    ?assertEqual([<<"1.1 value 0">>, <<"1.2 stored">>], asked(One, ["1.1 take 0", "1.2 put 0 5"])),
    ?assertEqual([<<"2.1 now value 5">>], hear(Third, 1)),
    Lines = [<<"3.", (integer_to_binary(N))/binary, " refused 1 Gap">> || N <- lists:seq(2, 60)],
    ?assertEqual(Lines, asked(Other, [["3.", integer_to_list(N), " fetch 1"] || N <- lists:seq(2, 60)])),
    are_alike().

what_is_asked_twice_enters_the_log_once(_) ->
    start_all(),
    _ = begun(),
    Asked = imem_lines:asked("1.1 take 0"),
    [call(0, gen_server, cast, [imem_module_0, {ask, call(0, erlang, whereis, [imem_sup]), [{key, Asked}, {key, Asked}]}]) || _ <- [1, 2]],
    until(fun() -> call(0, imem_counts, value, [{repeated, 0}]) >= 2 end).

no_line_ends_or_shifts_the_members(_) ->
    start_all(),
    One = begun(),
    Program = program(0),
    Asker = call(0, erlang, whereis, [imem_sup]),
    Bad = [#asked{kind = look, text = Text} || Text <- [<<"quit">>, <<"count\ncell 0">>, <<"backup a">>, <<"no">>, none, <<"count\r">>]],
    ok = call(0, gen_server, cast, [imem_module_0, {ask, Asker, [{{key, At}, Line} || {At, Line} <- lists:zip(lists:seq(1, 6), Bad)]}]),
    ?assertEqual([<<"1 window 1 1">>, <<"count 2">>], asked(One, ["window 1", "count"])),
    ?assertEqual(Program, program(0)),
    are_alike().

a_killed_program_is_not_noticed(_) ->
    start_all(),
    One = begun(),
    Test = self(),
    Cluster = get(cluster),
    Killer = spawn_link(fun() ->
        put(cluster, Cluster),
        (fun Kill(At) ->
            timer:sleep(700),
            _ = os:cmd("pkill -KILL -f 'serve " ++ of_node(At rem 3, "memory") ++ "'"),
            receive stop -> Test ! stopped after 0 -> Kill(At + 1) end
        end)(0)
    end),
    count(One, "1", 0, 60),
    Killer ! stop,
    receive stopped -> ok end,
    ?assertEqual([<<"cell 0 m full 60">>], asked(One, ["cell 0"])),
    are_alike().

a_member_that_was_away_is_alike_again(_) ->
    start_all(),
    One = begun(),
    Away = hd([2, 1] -- [leader()]),
    kill(Away),
    count(One, "1", 0, 5),
    start(Away),
    are_alike().

%% Ra writes down the names of its servers in a while. A node that is killed before finds its log by its own name.
a_member_whose_names_were_not_kept_goes_on(_) ->
    start_all(),
    One = begun(),
    [kill(At) || At <- [1, 2]],
    ok = file:delete(filename:join(of_node(1, "log"), "names.dets")),
    ok = file:write_file(filename:join(of_node(2, "log"), "names.dets"), <<>>),
    [start(At) || At <- [1, 2]],
    count(One, "1", 0, 3),
    are_alike().

a_member_behind_a_snapshot_starts_again(_) ->
    start_all(),
    One = begun(),
    Away = hd([2, 1] -- [leader()]),
    kill(Away),
    count(One, "1", 0, 3 * ?EVERY),
    start(Away),
    are_alike(),
    ?assertMatch({ok, [_ | _]}, snapshots(Away)).

snapshots(At) ->
    case filelib:wildcard(filename:join([of_node(At, "log"), "m0_*", "snapshots", "*"])) of
        [] -> {error, none};
        Found -> {ok, Found}
    end.

%% A follower that is parted from the others is sent a snapshot once it hears them, and its image isn't gone on with.
a_member_that_is_sent_a_snapshot_as_it_runs_starts_again(_) ->
    start_all(),
    One = begun(),
    Away = hd([2, 1] -- [leader()]),
    Before = call(Away, erlang, whereis, [imem_module_0]),
    parted(Away, no),
    count(One, "1", 0, 3 * ?EVERY),
    parted(Away, imem),
    are_alike(),
    ?assertNotEqual(Before, call(Away, erlang, whereis, [imem_module_0])).

%% A node that has another cookie for others doesn't connect to them.
parted(At, Cookie) ->
    [begin
        true = call(At, erlang, set_cookie, [node_of(It), Cookie]),
        _ = Cookie =:= imem orelse call(At, erlang, disconnect_node, [node_of(It)])
    end || It <- [0, 1, 2], It =/= At].

a_node_that_lost_its_disk_is_refused_and_replaced(_) ->
    start_all(),
    One = begun(),
    Lost = hd([2, 1] -- [leader()]),
    kill(Lost),
    ok = file:del_dir_r(of_node(Lost, "log")),
    ok = file:make_dir(of_node(Lost, "log")),
    start(Lost),
    until(fun() -> is_over(Lost) end),
    count(One, "1", 0, 5),
    {ok, Config} = imem_config:checked(environment(0, [])),
    ok = call(0, imem_members, remove, [0, node_of(Lost), Config]),
    named(Lost),
    ok = call(0, imem_members, add, [0, node_of(Lost), Config]),
    kill(Lost),
    start(Lost),
    count(One, "1", 5, 5),
    are_alike().

%% The others read the new name when they start anew, one by one.
a_host_of_another_name_takes_the_place_of_a_lost_one(_) ->
    start_all(),
    One = begun(),
    kill(2),
    count(One, "1", 0, 5),
    {ok, Old} = imem_config:checked(environment(0, [])),
    ok = call(0, imem_members, remove, [0, node_of(2), Old]),
    Named = [{module, #{nodes => [node_of(At) || At <- [0, 1, 3]]}}],
    {ok, New} = imem_config:checked(environment(0, Named)),
    named(3),
    ok = call(0, imem_members, add, [0, node_of(3), New]),
    start(3, Named),
    are_alike([0, 1, 3]),
    [begin
        kill(At),
        start(At, Named),
        are_alike([0, 1, 3])
    end || At <- [1, 0]],
    count(connect(3), "1", 5, 5),
    are_alike([0, 1, 3]).

a_fault_of_one_node_is_told_to_nobody(_) ->
    start_all(),
    One = begun(),
    Away = hd([2, 1] -- [leader()]),
    Other = connect(Away),
    ok = file:write_file(of_node(Away, "does"), "faults"),
    _ = os:cmd("kill -KILL " ++ program(Away)),
    count(One, "1", 0, 3),
    count(Other, "2", 0, 3),        % By another member.
    ok = file:delete(of_node(Away, "does")),
    ?assertEqual([<<"cell 0 m full 6">>], asked(Other, ["cell 0"])),
    are_alike().

a_member_that_is_halted_is_left_for_another(_) ->
    start_all(),
    _ = begun(),
    Halted = hd([2, 1] -- [leader()]),
    Other = connect(Halted),
    ok = call(Halted, sys, suspend, [imem_module_0]),
    count(Other, "1", 0, 3),
    ok = call(Halted, sys, resume, [imem_module_0]),
    count(Other, "1", 3, 3),
    are_alike().

a_leader_that_is_halted_is_replaced(_) ->
    start_all(),
    One = begun(),
    Leader = leader(),
    Pid = call(Leader, os, getpid, []),
    Other = connect(hd([0, 1, 2] -- [Leader])),
    _ = os:cmd("kill -STOP " ++ Pid),
    count(Other, "1", 0, 3),
    _ = os:cmd("kill -CONT " ++ Pid),
    count(One, "2", 0, 3),
    are_alike().

%% For Ra it leads on, as its node is heard: whoever waits for it asks for another leader.
a_leader_that_takes_nothing_is_replaced(_) ->
    start_all(),
    _ = begun(),
    Leader = leader(),
    Other = connect(hd([0, 1, 2] -- [Leader])),
    ok = call(Leader, sys, suspend, [imem_log_0]),
    count(Other, "1", 0, 3),
    ok = call(Leader, sys, resume, [imem_log_0]),
    are_alike().

without_a_majority_nothing_is_answered(_) ->
    start_all(),
    One = begun(),
    [kill(At) || At <- [1, 2]],
    ok = gen_tcp:send(One, "1.1 take 0\n"),
    ?assertEqual({error, timeout}, gen_tcp:recv(One, 0, 3000)),
    start(1),
    ?assertEqual([<<"1.1 value 0">>], hear(One, 1)),
    start(2),
    are_alike().

other_sizes_are_refused(_) ->
    start_all(),
    One = begun(),
    kill(2),
    start(2, [{module, #{sizes => ["--cells", "128"]}}]),
    until(fun() -> is_over(2) end),
    count(One, "1", 0, 3).

a_backup_is_of_one_member(_) ->
    start_all(),
    _ = begun(),
    {ok, Socket} = gen_tcp:connect({local, socket(1) ++ "-backup"}, 0, [binary, {packet, line}, {active, false}]),
    are_alike(),
    ?assertEqual([<<"backup daily-1 count 2">>], asked(Socket, ["backup daily-1"])),
    ?assertEqual([<<"backup daily-1 refused: file already exists">>], asked(Socket, ["backup daily-1"])),
    ?assert(filelib:file_size(filename:join(of_node(1, "backups"), "daily-1")) > 0).

metrics_are_of_one_member(_) ->
    Port = 20000 + rand:uniform(20000),
    [named(At) || At <- [0, 1, 2]],
    [start(At, [{metrics, {{127, 0, 67, 10 + At}, Port}}]) || At <- [0, 1, 2]],
    [is_open(At) || At <- [0, 1, 2]],
    _ = begun(),
    are_alike(),
    {ok, _} = application:ensure_all_started(inets),
    Get = fun(At, Path) ->
        Address = "http://127.0.67." ++ integer_to_list(10 + At) ++ ":" ++ integer_to_list(Port) ++ Path,
        {ok, {{_, Status, _}, _, Body}} = httpc:request(get, {Address, []}, [{timeout, 9000}], []),
        {Status, Body}
    end,
    ?assertEqual([{200, "well\n"} || _ <- [0, 1, 2]], [Get(At, "/health") || At <- [0, 1, 2]]),
    Well = fun(At) -> string:find(element(2, Get(At, "/metrics")), "imem_commands_total{module=\"0\"} 2\n") =/= nomatch end,
    ?assert(lists:all(Well, [0, 1, 2])),
    [kill(At) || At <- [1, 2]],
    ?assertEqual({503, "module 0 doesn't answer\n"}, Get(0, "/health")),
    ?assert(Well(0)).

%% A client that was moved to another member hears the value from both, and tells it once.
a_value_is_told_once_though_two_members_know_it(_) ->
    start_all(),
    One = begun(),
    Halted = hd([2, 1] -- [leader()]),
    Other = connect(Halted),
    [<<"1.1 value 0">>] = asked(One, ["1.1 take 0"]),
    [<<"2.1 waiting">>] = asked(Other, ["2.1 take 0"]),
    ok = call(Halted, sys, suspend, [imem_module_0]),
    ?assertEqual([<<"1 window 1 2">>], asked(Other, ["window 1"])),
    ?assertEqual([<<"1.2 stored">>], asked(One, ["1.2 put 0 9"])),
    ?assertEqual([<<"2.1 now value 9">>], hear(Other, 1)),
    ok = call(Halted, sys, resume, [imem_module_0]),
    ?assertEqual([<<"2 window 1 2">>], asked(Other, ["window 2"])),
    ?assertEqual({error, timeout}, gen_tcp:recv(Other, 0, 1000)),
    are_alike().

%% Three elements count in eight counters, while messages are lost, and programs are killed.
elements_count_exactly(_) ->
    Cluster = #{number => 5, program => {imem_counting, {none, 8, 6}}, elements => [{1 + At, [node_of(At)]} || At <- [0, 1, 2]]},
    start_all([{cluster, Cluster}, {repeats_waiting, 300}, {send, {imem_counting, send}}]),
    Wanted = [iolist_to_binary(["cell ", integer_to_list(3 + A), " m full 18"]) || A <- lists:seq(0, 7)],
    Lines = [["cell ", integer_to_list(3 + A)] || A <- lists:seq(0, 7)],
    Test = self(),
    Folder = map_get(folder, get(cluster)),
    Killer = spawn_link(fun Kill() ->
        timer:sleep(900),
        _ = os:cmd("pkill -KILL -n -f 'serve " ++ Folder ++ "'"),
        receive stop -> Test ! stopped after 0 -> Kill() end
    end),
    One = connect(0),
    until(fun() -> asked(One, Lines) =:= Wanted end, 1500),
    Killer ! stop,
    receive stopped -> ok end,
    are_alike().
