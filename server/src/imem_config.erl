%% What the server is told by `sys.config`, checked before anything starts. A fault is said in words.
-module(imem_config).
-export([checked/1, nodes_of/2, is_replicated/2, own/1, send/2]).
-export_type([config/0, module_config/0, listener/0, at/0, cluster/0]).

%% Who sends a message: a module's function of where and what. A trial has one that loses some.
-type sender() :: {module(), atom()}.

%% nodes: one, which has the image, or several, each of which has a copy made of the log. sizes are the copies'.
-type module_config() :: #{
    nodes := [node()],
    image => file:filename() | none,
    sizes => [string()],
    snapshot_every => pos_integer(),
    backups => file:filename() | none,
    options => [string()],
    env => [{string(), string()}]
}.

-type at() ::
    {unix, file:filename()}
    | {tcp, inet:ip_address(), inet:port_number()}
    | {tls, inet:ip_address(), inet:port_number()}
    | {fd, non_neg_integer()}.

%% elements: those that a client may use, in all, by its user's number (Unix sockets), or by the common name of its
%% certificate (TLS).
-type listener() :: #{
    at := at(),
    role := imem_lines:role(),
    module := non_neg_integer(),
    elements := all | [imem_lines:element()] | {by_user, map()} | {by_name, map()},
    clients := pos_integer(),
    lines := pos_integer(),
    bytes := pos_integer(),
    patience := pos_integer(),
    mode := non_neg_integer(),
    tls := [ssl:tls_server_option()]
}.

-type cluster() :: #{
    number := non_neg_integer(),
    program := {module(), term()},
    elements := [{imem_lines:element(), [node()]}]
}.

-type config() :: #{
    imem := file:filename(),
    log := file:filename() | none,
    memory := file:filename(),
    modules := #{non_neg_integer() => module_config()},
    listeners := [listener()],
    metrics := none | {inet:ip_address(), inet:port_number()},
    cluster := none | cluster(),
    answers_within := pos_integer(),
    repeats_waiting := pos_integer(),
    send := sender()
}.

-spec checked([{atom(), term()}]) -> {ok, config()} | {error, string()}.
checked(Environment) ->
    try
        Given = maps:from_list([It || {Key, _} = It <- Environment, Key =/= included_applications]),
        {ok, with_log(with_listeners(taken(Given, "imem_server", [
            {imem, "/usr/bin/imem", fun program/2},
            {log, none, fun folder/2},
            {memory, "/dev/shm", fun folder/2},
            {modules, required, fun modules/2},
            {listeners, none, fun listeners/2},
            {metrics, none, fun metrics/2},
            {cluster, none, fun cluster/2},
            {answers_within, 30000, fun positive/2},
            {repeats_waiting, 10000, fun positive/2},
            {send, {?MODULE, send}, fun sender/2}
        ])))}
    catch
        throw:{bad, Words} -> {error, lists:flatten(Words)}
    end.

%% The nodes of a module, this one first.
-spec nodes_of(non_neg_integer(), config()) -> [node()].
nodes_of(K, #{modules := Modules}) ->
    #{K := #{nodes := Nodes}} = Modules,
    [Node || Node <- Nodes, Node =:= node()] ++ [Node || Node <- Nodes, Node =/= node()].

%% Whether a module has a copy on each of several nodes.
-spec is_replicated(non_neg_integer(), config()) -> boolean().
is_replicated(K, #{modules := Modules}) ->
    #{K := #{nodes := Nodes}} = Modules,
    length(Nodes) > 1.

%% The modules of this node.
-spec own(config()) -> [non_neg_integer()].
own(#{modules := Modules}) ->
    [K || {K, #{nodes := Nodes}} <- lists:sort(maps:to_list(Modules)), lists:member(node(), Nodes)].

%% Sends a message, to a name that need not be there.
-spec send({atom(), node()} | pid(), term()) -> ok.
send(Where, Message) ->
    _ = erlang:send(Where, Message),
    ok.

-spec bad(iodata()) -> no_return().
bad(Words) -> throw({bad, Words}).

%% A map with all of these keys, each as it is given or else, and with no other.
taken(Given, Where, Keys) when is_map(Given) ->
    Known = [Key || {Key, _, _} <- Keys],
    case maps:keys(maps:without(Known, Given)) of
        [] ->
            Value = fun(Key, Else, Check) -> value(maps:find(Key, Given), Else, Check, [Where, ", ", word(Key)]) end,
            maps:from_list([{Key, Value(Key, Else, Check)} || {Key, Else, Check} <- Keys]);
        [Other | _] -> bad([Where, ": ", shown(Other), " is none of ", lists:join(", ", [word(Key) || Key <- Known])])
    end;
taken(Given, Where, _) -> wrong(Where, Given, "a map").

value({ok, Given}, _, Check, Where) -> Check(Given, Where);
value(error, required, _, Where) -> bad([Where, " isn't given"]);
value(error, Else, _, _) -> Else.

word(Key) -> atom_to_list(Key).

shown(Term) -> io_lib:format("~0tp", [Term]).

-spec wrong(iodata(), term(), iodata()) -> no_return().
wrong(Where, Given, Expected) -> bad([Where, ": ", shown(Given), ", where ", Expected, " is expected"]).

%% ---- Kinds of values

positive(Number, _) when is_integer(Number), Number > 0 -> Number;
positive(Given, Where) -> wrong(Where, Given, "a number above 0").

natural(Number, _) when is_integer(Number), Number >= 0 -> Number;
natural(Given, Where) -> wrong(Where, Given, "a number from 0 on").

file([C | _] = Path, Where) when is_integer(C) ->
    case io_lib:printable_unicode_list(Path) of
        true -> Path;
        false -> wrong(Where, Path, "a path in quotes")
    end;
file(Given, Where) -> wrong(Where, Given, "a path in quotes").

program(Given, Where) ->
    Path = file(Given, Where),
    case filelib:is_regular(Path) of
        true -> Path;
        false -> bad([Where, ": there is no program ", Path])
    end.

folder(none, _) -> none;
folder(Given, Where) ->
    Path = file(Given, Where),
    case filelib:is_dir(Path) of
        true -> Path;
        false -> bad([Where, ": there is no folder ", Path])
    end.

node_name(Node, _) when is_atom(Node) -> Node;
node_name(Given, Where) -> wrong(Where, Given, "a node's name").

node_names([_ | _] = Given, Where) ->
    Nodes = each(fun node_name/2, Given, Where),
    case length(lists:usort(Nodes)) =:= length(Nodes) of
        true -> Nodes;
        false -> bad([Where, ": a node stands twice"])
    end;
node_names(Given, Where) -> wrong(Where, Given, "a list of nodes' names").

texts(Given, Where) when is_list(Given) -> [file(It, Where) || It <- Given];
texts(Given, Where) -> wrong(Where, Given, "a list of words in quotes").

pairs(Given, Where) when is_list(Given) ->
    [case It of
        {[_ | _], [_ | _]} -> It;
        _ -> wrong(Where, It, "{\"NAME\", \"VALUE\"}")
    end || It <- Given];
pairs(Given, Where) -> wrong(Where, Given, "a list of {\"NAME\", \"VALUE\"}").

sender({Module, Function}, _) when is_atom(Module), is_atom(Function) -> {Module, Function};
sender(Given, Where) -> wrong(Where, Given, "{MODULE, FUNCTION}").

address({_, _, _, _} = Ip, Where) -> ip(Ip, Where);
address({_, _, _, _, _, _, _, _} = Ip, Where) -> ip(Ip, Where);
address(Given, Where) -> wrong(Where, Given, "an address such as {127,0,0,1}").

ip(Ip, Where) ->
    case inet:is_ip_address(Ip) of
        true -> Ip;
        false -> wrong(Where, Ip, "an address such as {127,0,0,1}")
    end.

port(Port, _) when is_integer(Port), Port >= 0, Port =< 65535 -> Port;
port(Given, Where) -> wrong(Where, Given, "a port's number").

%% Checks each of a list, which a fault numbers.
each(Check, List, Where) ->
    [Check(It, [Where, ", number ", integer_to_list(At)]) || {At, It} <- lists:zip(lists:seq(1, length(List)), List)].

%% ---- Modules

modules([_ | _] = Given, Where) ->
    Modules = maps:from_list(each(fun a_module/2, Given, Where)),
    case maps:size(Modules) =:= length(Given) of
        true -> Modules;
        false -> bad([Where, ": two have one number"])
    end;
modules(Given, Where) -> wrong(Where, Given, "a list of modules, such as #{module => 0, image => \"/srv/a.img\"}").

a_module(Given, Where) ->
    Taken = taken(Given, Where, [
        {module, 0, fun natural/2},
        {node, node(), fun node_name/2},
        {nodes, none, fun node_names/2},
        {image, none, fun file/2},
        {sizes, [], fun texts/2},
        {snapshot_every, 4096, fun positive/2},
        {backups, none, fun folder/2},
        {options, [], fun texts/2},
        {env, [], fun pairs/2}
    ]),
    #{module := K, node := Node, nodes := Several, image := Image} = Taken,
    Nodes = case Several of none -> [Node]; _ -> Several end,
    case lists:member(node(), Nodes) of
        true when length(Nodes) =:= 1, Image =:= none -> bad([Where, ", image isn't given"]);
        _ -> {K, maps:without([module, node], Taken#{nodes := Nodes})}
    end.

%% A module on several nodes has a log here, of Ra.
with_log(#{log := Log} = Config) ->
    case [K || K <- own(Config), is_replicated(K, Config)] of
        [] -> Config;
        [K | _] when Log =:= none -> bad(["imem_server, log isn't given, and module ", integer_to_list(K), " is on several nodes"]);
        [K | _] ->
            code:ensure_loaded(ra) =:= {module, ra}
                orelse bad(["imem_server, modules: module ", integer_to_list(K), " is on several nodes, and Ra isn't there"]),
            Config
    end.

%% ---- Listeners

%% Without listeners there is one of the modules that aren't a cluster's: RUNDIR/imem.sock.
with_listeners(#{listeners := none, cluster := none} = Config) ->
    Socket = filename:join(rundir(["RUNTIME_DIRECTORY", "XDG_RUNTIME_DIR"]), "imem.sock"),
    Config#{listeners := listeners([#{at => {unix, Socket}}], "listeners")};
with_listeners(#{listeners := none} = Config) -> Config#{listeners := []};
with_listeners(#{listeners := Listeners, modules := Modules} = Config) ->
    case [K || #{module := K} <- Listeners, not is_map_key(K, Modules)] of
        [] -> Config;
        [K | _] -> bad(["imem_server, listeners: there is no module ", integer_to_list(K)])
    end.

rundir([]) -> "/run/imem";
rundir([Name | Names]) ->
    case os:getenv(Name) of
        [_ | _] = Folder -> Folder;
        _ -> rundir(Names)
    end.

listeners(Given, Where) when is_list(Given) ->
    each(fun listener/2, Given, Where);
listeners(Given, Where) -> wrong(Where, Given, "a list of listeners, such as #{at => {unix, \"/run/imem/imem.sock\"}}").

listener(Given, Where) ->
    Taken = taken(Given, Where, [
        {at, required, fun at/2},
        {role, full, fun role/2},
        {module, 0, fun natural/2},
        {elements, all, fun elements/2},
        {clients, 512, fun positive/2},
        {lines, 256, fun positive/2},
        {bytes, 4194304, fun positive/2},
        {patience, 10000, fun positive/2},
        {mode, 8#660, fun natural/2},
        {tls, [], fun options/2}
    ]),
    case Taken of
        #{at := {tls, _, _}, tls := Options} ->
            Lacking = [Key || Key <- [certfile, keyfile, cacertfile], not lists:keymember(Key, 1, Options)],
            Lacking =:= [] orelse bad([Where, ", tls: there is no ", atom_to_list(hd(Lacking))]),
            Taken;
        #{elements := {by_name, _}} ->
            bad([Where, ", elements: names are those of certificates, so `at` has to be {tls, IP, PORT}"]);
        _ -> Taken
    end.

at({unix, Path}, Where) -> {unix, file(Path, Where)};
at({tcp, Ip, Port}, Where) ->
    case address(Ip, Where) of
        {127, _, _, _} -> ok;
        {0, 0, 0, 0, 0, 0, 0, 1} -> ok;
        _ -> bad([Where, ": ", shown(Ip), " isn't this machine's own; beyond it use {tls, IP, PORT}"])
    end,
    {tcp, Ip, port(Port, Where)};
at({tls, Ip, Port}, Where) -> {tls, address(Ip, Where), port(Port, Where)};
at({fd, Number}, Where) -> {fd, natural(Number, Where)};
at(Given, Where) -> wrong(Where, Given, "{unix, PATH}, {tcp, IP, PORT}, {tls, IP, PORT} or {fd, NUMBER}").

role(Role, _) when Role =:= full; Role =:= read; Role =:= backup -> Role;
role(Given, Where) -> wrong(Where, Given, "full, read or backup").

elements(all, _) -> all;
elements({By, Map}, Where) when By =:= by_user, is_map(Map); By =:= by_name, is_map(Map) ->
    {By, maps:map(fun(_, Some) -> some(Some, Where) end, Map)};
elements(Given, Where) -> some(Given, Where).

some(all, _) -> all;
some(Given, Where) when is_list(Given) -> [element_number(It, Where) || It <- Given];
some(Given, Where) -> wrong(Where, Given, "all, a list of elements, {by_user, MAP} or {by_name, MAP}").

element_number(E, _) when is_integer(E), E >= 0, E =< 65535 -> E;
element_number(Given, Where) -> wrong(Where, Given, "an element's number from 0 to 65535").

options(Given, _) when is_list(Given) -> Given;
options(Given, Where) -> wrong(Where, Given, "a list of options of ssl").

metrics(none, _) -> none;
metrics({Ip, Port}, Where) -> {address(Ip, Where), port(Port, Where)};
metrics(Given, Where) -> wrong(Where, Given, "none or {IP, PORT}").

%% ---- Elements

cluster(none, _) -> none;
cluster(Given, Where) ->
    taken(Given, Where, [
        {number, required, fun natural/2},
        {program, required, fun element_program/2},
        {elements, required, fun seats/2}
    ]).

element_program({Module, Arguments}, Where) when is_atom(Module) ->
    case code:ensure_loaded(Module) of
        {module, Module} -> {Module, Arguments};
        {error, _} -> bad([Where, ": there is no module ", atom_to_list(Module)])
    end;
element_program(Given, Where) -> wrong(Where, Given, "{MODULE, ARGUMENTS}").

seats(Given, Where) when is_list(Given) ->
    [case It of
        {E, [_ | _] = Nodes} when E > 0 -> {element_number(E, Where), [node_name(Node, Where) || Node <- Nodes]};
        _ -> wrong(Where, It, "{ELEMENT, [NODE, ..]}")
    end || It <- Given];
seats(Given, Where) -> wrong(Where, Given, "a list of {ELEMENT, [NODE, ..]}").
