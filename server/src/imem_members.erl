%% The members of a module that is on several nodes: a server of Ra for each, whose log lies on its node's disk.
%%
%% A member has a name, which is written once beside its log. A node that lost its disk doesn't know any more what it
%% voted for, so it must not go on as the same member: without its name it is refused. It is removed by another member,
%% gets a new name, and is added; the log's leader sends it an image and what follows.
-module(imem_members).
-export([start/1, clean/1, join/2, leave/1, id/2, leader/1, elect/1, snapshot/4]).
-export([make/1, remove/3, add/3, listed/1, ask/1]).
-export_type([id/0]).

-type id() :: {atom(), node()}.

-define(SYSTEM, imem).
-define(WAL, 33554432).     % bytes of a file of the log: a start reads those that are left
-define(ROOM, 67108864).    % bytes that a log's disk has to have when a member starts
-define(WITHIN, 10000).

-spec id(non_neg_integer(), node()) -> id().
id(K, Node) -> {list_to_atom("imem_log_" ++ integer_to_list(K)), Node}.

%% ---- In the server

%% Starts Ra, if it isn't there.
-spec start(imem_config:config()) -> ok | {error, term()}.
start(#{log := Folder}) ->
    #{server_sup := Top} = Names = ra_system:derive_names(?SYSTEM),
    Start = fun() -> case whereis(Top) of undefined -> started(Folder, Names); _ -> ok end end,
    global:trans({?MODULE, self()}, Start, [node()]).

started(Folder, Names) ->
    try
        ok = clean(Folder),
        ok = room(Folder),
        {ok, _} = application:ensure_all_started(ra),
        {ok, _} = ra_system:start((ra_system:default_config())#{name => ?SYSTEM, names => Names,
            data_dir => Folder, wal_data_dir => Folder, wal_max_size_bytes => ?WAL}),
        watched(Names)
    catch _:Why -> {error, Why}
    end.

%% Where a write of the log fails, as on a full disk, Ra goes on with what it has in memory and never wrote: the log on the
%% disk has a hole then. So the node ends at once, and starts from what is on the disk, once there is room.
watched(#{wal := Name}) ->
    Pid = whereis(Name),
    _ = spawn(fun() ->
        _ = process_flag(priority, max),
        Monitor = monitor(process, Pid),
        receive
            {'DOWN', Monitor, _, _, Why} when Why =:= shutdown; Why =:= normal -> ok;
            {'DOWN', Monitor, _, _, Why} -> ends(Why)
        end
    end),
    ok.

%% What is said waits for nobody.
-spec ends(term()) -> no_return().
ends(Why) ->
    _ = erlang:display({the_log_failed, Why}),
    halt(1, [{flush, false}]).

%% Whether the disk takes some files of the log.
room(Folder) ->
    Path = filename:join(Folder, "room"),
    {ok, File} = file:open(Path, [write, raw]),
    Found = file:allocate(File, 0, ?ROOM),
    _ = file:close(File),
    _ = file:delete(Path),
    case Found of
        {error, enospc} -> {error, enospc};
        _ -> ok     % Some file systems don't tell.
    end.

%% A node that ended as Ra made these files leaves them empty, and none would start with them. Nothing was in them: what
%% a member voted for is on the disk before it is told.
-spec clean(file:filename()) -> ok.
clean(Folder) ->
    Files = [filename:join(Folder, Name) || Name <- ["names.dets", "meta.dets"]],
    Empty = [It || It <- Files, filelib:is_regular(It), filelib:file_size(It) =:= 0],
    lists:foreach(fun(It) -> ok = file:delete(It) end, Empty).

%% Starts the member of a module anew, with its log. Ra may have forgotten its name, since it writes that down only in
%% a while; under the same name it finds its log, and what it voted for.
-spec join(non_neg_integer(), imem_config:config()) -> ok | {error, term()}.
join(K, #{modules := Modules} = Config) ->
    #{K := #{nodes := Nodes}} = Modules,
    Id = id(K, node()),
    case {name(Config), start(Config)} of
        {{ok, Name}, ok} ->
            _ = leave(K),
            Uid = <<"m", (integer_to_binary(K))/binary, "_", Name/binary>>,
            Machine = {module, imem_machine, #{replica => imem_module:name(K)}},
            Member = #{id => Id, uid => Uid, cluster_name => imem_module:name(K), machine => Machine,
                initial_members => [id(K, Node) || Node <- Nodes], log_init_args => #{uid => Uid, snapshot_interval => 1}},
            case tried(fun() -> ra:restart_server(?SYSTEM, Id) end) of
                ok -> ok;
                {error, _} -> tried(fun() -> ra:start_server(?SYSTEM, Member) end)
            end;
        {{error, Why}, _} -> {error, {no_name, Why}};
        {_, {error, Why}} -> {error, {no_log, Why}}
    end.

-spec leave(non_neg_integer()) -> ok | {error, term()}.
leave(K) -> tried(fun() -> ra:stop_server(?SYSTEM, id(K, node())) end).

%% Where Ra has ended, as when its disk is full, some of its calls fail otherwise than they say.
tried(Call) ->
    try Call()
    catch _:Why -> {error, Why}
    end.

%% Who leads, as far as this node knows.
-spec leader(non_neg_integer()) -> id() | undefined.
leader(K) -> ra_leaderboard:lookup_leader(imem_module:name(K)).

%% This node's member asks to be elected, in a process of its own. New members wait for one that does.
-spec elect(non_neg_integer()) -> pid().
elect(K) -> spawn(fun() -> catch ra:trigger_election(id(K, node())) end).

-spec snapshot(non_neg_integer(), ra:index(), binary(), imem_machine:origins()) -> ok.
snapshot(K, Index, Packed, Origins) ->
    ra:cast_aux_command(id(K, node()), {snapshot, {Index, Packed}, Origins}).

%% ---- By hand

file_of_name(#{log := Folder}) -> filename:join(Folder, "member").

%% A host that ended as the name was written has none.
name(Config) ->
    case file:read_file(file_of_name(Config)) of
        {ok, <<Name:16/binary, "\n">>} -> {ok, Name};
        {ok, _} -> {error, no_whole_name};
        {error, Why} -> {error, Why}
    end.

%% Writes this node's name, if there is none. It is on the disk then, and so is its entry in the folder.
-spec make(imem_config:config()) -> ok | {error, term()}.
make(#{log := Folder} = Config) ->
    case name(Config) of
        {ok, _} -> {error, eexist};
        {error, _} ->
            case file:open(file_of_name(Config), [write, raw]) of
                {ok, File} ->
                    ok = file:write(File, [binary:encode_hex(crypto:strong_rand_bytes(8)), $\n]),
                    ok = synced(File),
                    {ok, Entries} = file:open(Folder, [read, raw, directory]),
                    synced(Entries);
                {error, Why} -> {error, Why}
            end
    end.

synced(File) ->
    ok = file:sync(File),
    file:close(File).

%% Lets the others of a module go on without a node, or with it.
-spec remove(non_neg_integer(), node(), imem_config:config()) -> ok | {error, term()}.
remove(K, Node, Config) -> changed(ra:remove_member(others(K, Node, Config), id(K, Node), ?WITHIN)).

-spec add(non_neg_integer(), node(), imem_config:config()) -> ok | {error, term()}.
add(K, Node, Config) -> changed(ra:add_member(others(K, Node, Config), id(K, Node), ?WITHIN)).

others(K, Node, Config) -> [id(K, It) || It <- imem_config:nodes_of(K, Config), It =/= Node].

changed({ok, _, _}) -> ok;
changed({timeout, _}) -> {error, timeout};
changed({error, Why}) -> {error, Why}.

%% A line for each member of each module: where it is in the log, and who leads.
-spec listed(imem_config:config()) -> [iolist()].
listed(#{modules := Modules} = Config) ->
    [[io_lib:format("module ~b ~s: ~s~n", [K, Node, told(status(K, Node))])]
        || K <- lists:sort(maps:keys(Modules)), imem_config:is_replicated(K, Config),
            Node <- lists:sort(imem_config:nodes_of(K, Config))].

status(K, Node) ->
    try gen_server:call({imem_module:name(K), Node}, status, ?WITHIN)
    catch exit:_ -> away
    end.

told(away) -> "away";
told(#{at := At, phase := Phase, leads := Leads}) ->
    io_lib:format("at line ~b of the log, ~s~s", [At, Phase, case Leads of true -> ", leads"; false -> "" end]).

%% For `imem-member`: `erl -config FILE -s imem_members ask WORD NODE`.
-spec ask([atom()]) -> no_return().
ask(Words) ->
    _ = application:load(imem_server),
    case imem_config:checked(application:get_all_env(imem_server)) of
        {ok, Config} -> said(asked(Words, Config));
        {error, Why} -> said({error, Why})
    end.

asked([make], Config) -> make(Config);
asked([list], Config) -> {told, listed(Config)};
asked([remove, Node], Config) -> each(fun(K) -> remove(K, Node, Config) end, Node, Config);
asked([add, Node], Config) -> each(fun(K) -> add(K, Node, Config) end, Node, Config);
asked(_, _) -> {error, "make, list, remove NODE or add NODE"}.

%% The modules that are on a node, until one is refused.
each(Do, Node, #{modules := Modules} = Config) ->
    Own = [K || {K, #{nodes := Nodes}} <- lists:sort(maps:to_list(Modules)), lists:member(Node, Nodes),
        imem_config:is_replicated(K, Config)],
    lists:foldl(fun(K, ok) -> Do(K); (_, Fault) -> Fault end, ok, Own).

-spec said(ok | {told, iolist()} | {error, term()}) -> no_return().
said(ok) -> halt(0);
said({told, Text}) ->
    io:put_chars(Text),
    halt(0);
said({error, Why}) ->
    io:format(standard_error, "imem-member: ~0tp~n", [Why]),
    halt(1).
