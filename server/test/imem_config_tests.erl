%% A configuration that is well, and what is said of one that isn't.
-module(imem_config_tests).
-include_lib("eunit/include/eunit.hrl").

-define(WELL, [{imem, "/bin/sh"}, {modules, [#{image => "/srv/a.img"}]}]).

with(Key, Value) -> imem_config:checked(lists:keystore(Key, 1, ?WELL, {Key, Value})).

what_is_left_out_has_a_value_test() ->
    {ok, Config} = imem_config:checked(?WELL),
    Node = node(),
    ?assertMatch(#{listeners := [#{at := {unix, _}, role := full}], metrics := none, cluster := none, answers_within := 30000}, Config),
    ?assertMatch(#{modules := #{0 := #{image := "/srv/a.img", backups := none, nodes := [Node]}}}, Config),
    {ok, #{listeners := [Listener]}} = with(listeners, [#{at => {unix, "/run/imem.sock"}}]),
    ?assertMatch(#{role := full, module := 0, elements := all, clients := 512, mode := 8#660}, Listener).

a_module_on_several_nodes_is_replicated_test() ->
    {ok, Config} = with(modules, [#{nodes => [b@host, a@host]}, #{module => 1, image => "/srv/b.img"}]),
    ?assertEqual([true, false], [imem_config:is_replicated(K, Config) || K <- [0, 1]]),
    ?assertEqual([[b@host, a@host], [node()]], [imem_config:nodes_of(K, Config) || K <- [0, 1]]),
    ?assertEqual([1], imem_config:own(Config)).

%% One that names a single node is as one that names none.
a_module_on_one_of_a_list_is_not_test() ->
    {ok, Config} = with(modules, [#{nodes => [node()], image => "/srv/a.img"}]),
    ?assertEqual(false, imem_config:is_replicated(0, Config)),
    ?assertEqual({error, "imem_server, modules, number 1, image isn't given"}, with(modules, [#{nodes => [node()]}])).

faults_are_said_in_words_test_() ->
    Faults = [
        {imem_config:checked([{imem, "/bin/sh"}]), "imem_server, modules isn't given"},
        {with(imem, "/no/such"), "imem_server, imem: there is no program /no/such"},
        {with(modules, []), "imem_server, modules: [], where a list of modules, such as #{module => 0, image => \"/srv/a.img\"} is expected"},
        {with(modules, [#{module => 1}]), "imem_server, modules, number 1, image isn't given"},
        {with(modules, [#{image => "a"}, #{image => "b"}]), "imem_server, modules: two have one number"},
        {with(modules, [#{image => "a", backups => "/no/such"}]), "imem_server, modules, number 1, backups: there is no folder /no/such"},
        {with(listeners, [#{at => {unix, "a"}, role => ful}]), "imem_server, listeners, number 1, role: ful, where full, read or backup is expected"},
        {with(listeners, [#{at => {tcp, {10, 0, 0, 1}, 70}}]),
            "imem_server, listeners, number 1, at: {10,0,0,1} isn't this machine's own; beyond it use {tls, IP, PORT}"},
        {with(listeners, [#{at => {tls, {10, 0, 0, 1}, 70}}]), "imem_server, listeners, number 1, tls: there is no certfile"},
        {with(listeners, [#{at => {unix, "a"}, rolle => full}]),
            "imem_server, listeners, number 1: rolle is none of at, role, module, elements, clients, lines, bytes, patience, mode, tls"},
        {with(listeners, [#{at => {unix, "a"}, module => 3}]), "imem_server, listeners: there is no module 3"},
        {with(metrics, 80), "imem_server, metrics: 80, where none or {IP, PORT} is expected"},
        {with(cluster, #{number => 7}), "imem_server, cluster, program isn't given"},
        {with(cluster, #{number => 7, program => {no_such, 1}, elements => []}), "imem_server, cluster, program: there is no module no_such"},
        {with(modules, [#{nodes => [a, b, a]}]), "imem_server, modules, number 1, nodes: a node stands twice"},
        {with(modules, [#{nodes => []}]), "imem_server, modules, number 1, nodes: [], where a list of nodes' names is expected"},
        {with(modules, [#{nodes => [node(), other@host]}]), "imem_server, log isn't given, and module 0 is on several nodes"},
        {with(log, "/no/such"), "imem_server, log: there is no folder /no/such"},
        {with(answers_within, 0), "imem_server, answers_within: 0, where a number above 0 is expected"}
    ],
    [?_assertEqual({error, Said}, Given) || {Given, Said} <- Faults].
