%% One member of a module that is on several nodes: an image, served by `imem serve`, that gets each line of the
%% module's log in the log's order (imem_machine). It is asked, and answers, as an imem_module is.
%%
%% What is asked is looked at, and enters the log as a command of this node. Ra puts it on the disks of most members
%% before any of them acts on it. Each member answers those who asked it, by its own image.
%%
%% The log is what is kept. The image is made anew at each start, from the snapshot and the log behind it, and is never
%% gone on with: a request that was refused then could be accepted now, and the members would differ. So it lies in
%% memory and needs no sync. Where the program or the server of Ra ends both end, and the supervisor starts both: no
%% line is lost between them, and none comes twice.
-module(imem_replica).
-behaviour(gen_server).
-export([start_link/2]).
-export([init/1, handle_continue/2, handle_call/3, handle_cast/2, handle_info/2, terminate/2, format_status/1]).

-include("imem.hrl").
-include_lib("kernel/include/logger.hrl").

-define(MOST_LINES, 64).        % in a command
-define(MOST_COMMANDS, 8).      % of this node that aren't seen in the log
-define(TICK, 1000).
-define(PAUSE, 1000).           % milliseconds before a member that ended by itself is started again

%% Whose the next answer of the program is.
-type for() :: #query{} | nobody | {look, pid(), imem_module:key()} | {copy, #query{}, pos_integer(), file:filename()}
    | {snapshot, ra:index(), imem_machine:origins()}.

-record(state, {
    number :: non_neg_integer(),
    config :: imem_config:config(),
    folder :: file:filename(),                          % of the image, in memory
    server :: pid() | undefined,                        % the process of Ra whose lines are heard
    is = recover :: atom(),                             % what its member is
    phase = joining :: joining | opening | open | ended,
    port :: port() | undefined,
    pipe :: imem_pipe:pipe() | undefined,
    at = 0 :: ra:index(),                               % of the last line that the image got
    since = 0 :: non_neg_integer(),                     % lines after the last snapshot
    origins = #{} :: imem_machine:origins(),
    commands :: imem_commands:commands() | undefined,
    askers = imem_askers:new() :: imem_askers:askers(),
    checks = 0 :: non_neg_integer(),                    % that aren't answered yet
    refused = none :: binary() | none
}).

-spec start_link(non_neg_integer(), imem_config:config()) -> gen_server:start_ret().
start_link(K, Config) -> gen_server:start_link({local, imem_module:name(K)}, ?MODULE, {K, Config}, []).

-spec init({non_neg_integer(), imem_config:config()}) -> {ok, #state{}, {continue, join}}.
init({K, #{memory := Memory} = Config}) ->
    process_flag(trap_exit, true),
    Folder = filename:join([Memory, "imem-" ++ atom_to_list(node()), integer_to_list(K)]),
    {ok, #state{number = K, config = Config, folder = Folder}, {continue, join}}.

-spec handle_continue(join, #state{}) -> {noreply, #state{}} | {stop, term(), #state{}}.
handle_continue(join, S = #state{number = K, config = Config, folder = Folder}) ->
    _ = file:del_dir_r(Folder),
    ok = filelib:ensure_path(Folder),
    _ = erlang:send_after(?TICK, self(), tick),
    case imem_members:join(K, Config) of
        ok -> {noreply, S};
        {error, {no_name, _} = Why} -> over(Why, S);
        {error, Why} -> paused({no_member, Why}, S)
    end.

-spec handle_call(term(), gen_server:from(), #state{}) -> {reply, term(), #state{}}.
handle_call(status, _, S = #state{at = At, phase = Phase, is = Is}) ->
    {reply, #{at => At, phase => Phase, leads => Is =:= leader}, S};
handle_call(_, _, S) -> {reply, unknown, S}.

-spec handle_cast(term(), #state{}) -> {noreply, #state{}} | {stop, term(), #state{}}.
handle_cast(_, S = #state{phase = ended}) -> {noreply, S};
handle_cast({ask, From, Lines}, S) -> {noreply, asked(From, Lines, S)};
handle_cast({look, From, Lines}, S = #state{pipe = Pipe}) when Pipe =/= undefined ->
    Looks = [{{look, From, Key}, Text} || {Key, #asked{kind = look, text = Text}} <- Lines],
    {noreply, S#state{pipe = imem_pipe:say(Looks, Pipe)}};
handle_cast({begin_with, Server, Begin}, S = #state{server = undefined}) -> begun(Server, Begin, S);
handle_cast({begin_with, _, _}, S) -> {stop, other_server, S};
handle_cast({begun, Server, Sizes}, S = #state{server = Server}) -> opened(Sizes, none, S);
handle_cast({lines, Server, Index, Numbered, Lines, Origins}, S = #state{server = Server}) ->
    {noreply, put_lines(snapshot(took(Index, Numbered, Lines, S#state{origins = Origins})))};
handle_cast({is, Server, Is}, S = #state{server = Server}) -> {noreply, is(Is, S)};
handle_cast({restored, Server, Index}, S = #state{server = Server, at = At}) when Index > At -> {stop, behind, S};
handle_cast(_, S) -> {noreply, S}.      % Of a server that was before.

-spec handle_info(term(), #state{}) -> {noreply, #state{}} | {stop, term(), #state{}}.
handle_info({ended, Why}, S) -> {stop, Why, S};
handle_info(_, S = #state{phase = ended}) -> {noreply, S};
handle_info({Port, {data, Data}}, S = #state{port = Port, pipe = Before}) ->
    {Lines, Pipe} = imem_pipe:heard(Data, Before),
    try lists:foldl(fun hear/2, {S#state{pipe = Pipe}, #{}}, Lines) of
        {After, Told} ->
            imem_module:tell(S#state.number, Told, S#state.config),
            {noreply, After}
    catch
        throw:{fault, Why} -> paused(Why, S);
        throw:{wrong, Why} -> over(Why, S)
    end;
handle_info({Port, {exit_status, Status}}, S = #state{port = Port}) -> program_ended(Status, S);
handle_info({'EXIT', Port, Why}, S = #state{port = Port}) -> program_ended(Why, S);
handle_info(pipe_has_room, S = #state{pipe = Pipe}) -> {noreply, S#state{pipe = imem_pipe:wrote(Pipe)}};
handle_info({ra_event, _, {rejected, {not_leader, Leader, Number}}}, S = #state{commands = Commands})
        when Commands =/= undefined ->
    {noreply, S#state{commands = imem_commands:rejected(Leader, Number, Commands)}};
handle_info({timeout, Timer, again}, S = #state{number = K, commands = Before, is = Is}) ->
    {Heard, Commands} = imem_commands:again(Timer, Before),
    %% A leader that sends and doesn't hear stays one, as the others hear it: whoever waits for it asks for another.
    _ = Heard =:= unheard andalso Is =/= leader andalso imem_members:elect(K),
    {noreply, S#state{commands = Commands}};
handle_info({copied, Query, Answer}, S = #state{number = K, config = Config}) ->
    {After, Told} = told(Query, Answer, {S, #{}}),
    imem_module:tell(K, Told, Config),
    {noreply, After};
handle_info({'DOWN', _, process, Server, Why}, S = #state{server = Server}) -> {stop, {server_ended, Why}, S};
handle_info({'DOWN', _, process, From, _}, S = #state{askers = Askers}) ->
    {noreply, S#state{askers = imem_askers:forget(From, Askers)}};
handle_info(tick, S = #state{number = K, config = #{answers_within := Within}, server = Server, pipe = Pipe}) ->
    _ = erlang:send_after(?TICK + rand:uniform(?TICK), self(), tick),
    _ = Server =/= undefined andalso imem_members:leader(K) =:= undefined andalso imem_members:elect(K),
    {noreply, S#state{pipe = imem_pipe:look_after(K, Within, Pipe)}};
handle_info(_, S) -> {noreply, S}.

-spec terminate(term(), #state{}) -> ok.
terminate(_, #state{number = K, pipe = Pipe, folder = Folder}) ->
    Pipe =:= undefined orelse imem_pipe:close(Pipe),
    _ = imem_members:leave(K),
    _ = file:del_dir_r(Folder),
    ok.

%% What logs have of it.
-spec format_status(gen_server:format_status()) -> gen_server:format_status().
format_status(Status) ->
    maps:map(fun
        (state, #state{number = K, phase = Phase, is = Is, at = At, askers = Askers}) ->
            (imem_askers:sizes(Askers))#{module => K, phase => Phase, is => Is, at => At};
        (_, Other) -> Other
    end, Status).

%% ---- Opening

%% The server of Ra that was started has its log, and tells each line of it.
begun(Server, #{sizes := Sizes, origins := Origins, base := Base}, S = #state{number = K, config = Config}) ->
    _ = monitor(process, Server),
    imem_counts:add({starts, K}),
    Checks = imem_module:checks(K, Config),
    #{modules := #{K := #{sizes := Own}}} = Config,
    New = imem_commands:new(K, {Origins, imem_config:nodes_of(K, Config)}),
    Commands = imem_commands:put({ask, texts(Checks)}, Checks, imem_commands:put({sizes, Own}, [], New)),
    Begun = S#state{server = Server, phase = opening, origins = Origins, commands = Commands, checks = length(Checks)},
    case Sizes of
        none -> {noreply, Begun};
        _ -> opened(Sizes, Base, Begun)
    end.

%% The image is a new one of the log's sizes, or that of the snapshot.
opened(Sizes, Base, S = #state{number = K, folder = Folder, config = #{imem := Imem, modules := Modules}}) ->
    #{K := #{sizes := Own, options := Options, env := Env}} = Modules,
    Image = filename:join(Folder, "image"),
    case Own =:= Sizes andalso filled(Base, Imem, Image, Sizes, Env) of
        false -> over({other_sizes, Own, Sizes}, S);
        {ok, At} ->
            Pipe = imem_pipe:open(Imem, ["serve", Image, "--watch", "--statuses", "--backups", Folder] ++ Options, Env),
            {noreply, S#state{port = imem_pipe:port(Pipe), pipe = Pipe, at = At}};
        {error, Status} when Status =:= 2 -> over({bad_sizes, Sizes}, S);
        {error, Why} -> paused({no_image, Why}, S)
    end.

filled(none, Imem, Image, Sizes, Env) ->
    Port = open_port({spawn_executable, Imem}, [{args, ["format", "--new", Image | Sizes]}, {env, Env}, exit_status]),
    case status(Port) of
        0 -> {ok, 0};
        Status -> {error, Status}
    end;
filled({Index, Packed}, _, Image, _, _) ->
    case file:write_file(Image, zlib:gunzip(Packed)) of
        ok -> {ok, Index};
        {error, Why} -> {error, Why}
    end.

status(Port) ->
    receive
        {Port, {exit_status, Status}} -> Status;
        {Port, _} -> status(Port)
    end.

is(leader, S = #state{number = K, commands = Commands}) ->
    ?LOG_NOTICE(#{what => "this node leads a module", module => K}, ?DOMAIN),
    S#state{is = leader, commands = imem_commands:leads(Commands)};
is(Is, S) -> S#state{is = Is}.

%% ---- What is asked

%% A line that isn't in the grammar, or that would end the program or tell of one image, enters no log: it would end or
%% shift all members, and at each start again.
asked(From, Given, S = #state{number = K, askers = Askers}) ->
    {Copies, Lines} = lists:partition(fun({_, #asked{kind = Kind}}) -> Kind =:= backup end, lists:filter(fun is_line/1, Given)),
    After = S#state{askers = imem_askers:add(K, From, Lines, Askers)},
    put_lines(lists:foldl(fun({Key, Asked}, Sum) -> copied(From, Key, Asked, Sum) end, After, Copies)).

is_line({_, #asked{text = Text} = Asked}) when is_binary(Text) ->
    case imem_lines:look(Text, #{role => all, elements => all}) of
        {ask, Looked} -> Looked =:= Asked orelse Looked#asked{kind = again} =:= Asked;
        _ -> false
    end;
is_line(_) -> false.

%% Puts what is asked into the log, as long as not too much of it is under way: what comes meanwhile goes together.
put_lines(S = #state{phase = open, commands = Commands, askers = Askers}) ->
    case imem_commands:held(Commands) < ?MOST_COMMANDS andalso imem_askers:take(?MOST_LINES, Askers) of
        false -> S;
        {[], After} -> S#state{askers = After};
        {Queries, After} ->
            put_lines(S#state{askers = After, commands = imem_commands:put({ask, texts(Queries)}, Queries, Commands)})
    end;
put_lines(S) -> S.

texts(Queries) -> [Text || #query{asked = #asked{text = Text}} <- Queries].

%% ---- From the log

%% Lines of the log, for the image. This node's own have somebody to be told.
took(Index, {Node, Start, Number}, Texts, S = #state{since = Since, pipe = Pipe, commands = Before}) ->
    {Queries, Commands} = case Node =:= node() of
        true -> imem_commands:seen(Start, Number, Before);
        false -> {[], Before}
    end,
    For = case Queries of [] -> lists:duplicate(length(Texts), nobody); _ -> Queries end,
    Said = imem_pipe:say(lists:zip(For, Texts), Pipe),
    S#state{at = Index, since = Since + length(Texts), pipe = Said, commands = Commands}.

%% ---- From the program

%% Hears a line: the program's last one, an answer that comes later, or the answer to the oldest line in the pipe.
hear(<<"refused ", Refusal/binary>>, {S, Told}) -> {S#state{refused = Refusal}, Told};
hear(Answer, {S = #state{askers = Askers, pipe = Pipe}, Told}) ->
    case imem_askers:later(Answer, {Askers, Told}) of
        {Others, More} -> {S#state{askers = Others}, More};
        in_turn ->
            is_fault(binary:split(Answer, <<" ">>, [global])) andalso throw({fault, {fault_of_this_node, Answer}}),
            case imem_pipe:answered(Pipe) of
                {For, Rest} -> heard(For, Answer, {S#state{pipe = Rest}, Told});
                empty -> throw({wrong, {unasked, Answer}})
            end
    end.

%% Device, Failed and NoMemory are faults of this node alone, and no answers of the module.
is_fault([_, <<"refused">>, Number | _]) -> lists:member(Number, [<<"8">>, <<"9">>, <<"10">>]);
is_fault(_) -> false.

-spec heard(for(), binary(), {#state{}, imem_askers:told()}) -> {#state{}, imem_askers:told()}.
heard(nobody, _, Sum) -> Sum;
heard(#query{from = check, key = Wanted}, Answer, {S = #state{number = K, config = Config}, Told}) ->
    imem_module:is_as_wanted(Wanted, Answer, Config) orelse throw({wrong, {wrong_log, K, Answer}}),
    {checked(S), Told};
heard({look, From, Key}, Answer, {S, Told}) -> {S, imem_askers:noted(From, {Key, Answer}, Told)};
heard({snapshot, At, _} = For, Answer, {S, Told}) ->
    case binary:match(Answer, <<" refused: ">>) of
        nomatch -> _ = packed(For, S);
        _ -> ?LOG_WARNING(#{what => "there is no snapshot", module => S#state.number, at => At, why => Answer}, ?DOMAIN)
    end,
    {S, Told};
heard({copy, _, _, _} = For, Answer, {S, Told}) ->
    _ = kept(For, Answer, S),
    {S, Told};
heard(Query, Answer, Sum) -> told(Query, Answer, Sum).

told(Query, Answer, {S = #state{askers = Askers}, Told}) ->
    {After, More} = imem_askers:answered(Query, Answer, {Askers, Told}),
    {S#state{askers = After}, More}.

%% Others are heard once all is as it should be.
checked(S = #state{checks = 1, number = K}) ->
    ?LOG_NOTICE(#{what => "a module is open", module => K}, ?DOMAIN),
    put_lines(S#state{checks = 0, phase = open});
checked(S = #state{checks = Left}) -> S#state{checks = Left - 1}.

%% ---- Copies of the image

%% A copy after so many lines: Ra may drop the log before it.
snapshot(S = #state{number = K, since = Since, at = At, origins = Origins, config = #{modules := Modules}}) ->
    #{K := #{snapshot_every := Every}} = Modules,
    case Since >= Every of
        true -> (copy({snapshot, At, Origins}, S))#state{since = 0};
        false -> S
    end.

copy(For, S = #state{pipe = Pipe}) ->
    S#state{pipe = imem_pipe:say([{For, ["backup ", copy_of(For)]}], Pipe)}.

copy_of({snapshot, At, _}) -> ["s", integer_to_list(At)];
copy_of({copy, _, Number, _}) -> ["c", integer_to_list(Number)].

%% A process of its own packs it.
packed(For = {snapshot, At, Origins}, #state{number = K, folder = Folder}) ->
    File = filename:join(Folder, copy_of(For)),
    spawn_link(fun() ->
        {ok, Image} = file:read_file(File),
        ok = file:delete(File),
        imem_members:snapshot(K, At, zlib:gzip(Image), Origins)
    end).

%% A backup that somebody asked for is of this member's image, and goes to this node's disk.
copied(From, Key, Asked = #asked{text = Text}, S = #state{number = K, askers = Askers, config = #{modules := Modules}}) ->
    <<"backup ", Name/binary>> = Text,
    Query = #query{from = From, key = Key, asked = Asked},
    After = imem_askers:add(K, From, [], Askers),
    #{K := #{backups := Folder}} = Modules,
    case S#state.phase =:= open andalso Folder of
        false -> tell_copied(Query, [Text, " refused: the module isn't open"], S#state{askers = After});
        none -> tell_copied(Query, [Text, " refused: there is no folder for backups"], S#state{askers = After});
        _ ->
            For = {copy, Query, erlang:unique_integer([positive]), filename:join(Folder, Name)},
            copy(For, S#state{askers = After})
    end.

tell_copied(Query, Answer, S) ->
    self() ! {copied, Query, iolist_to_binary(Answer)},
    S.

kept(For = {copy, #query{asked = #asked{text = Text}} = Query, _, To}, Answer, #state{folder = Folder}) ->
    File = filename:join(Folder, copy_of(For)),
    Replica = self(),
    spawn_link(fun() ->
        Rest = lists:nthtail(2, binary:split(Answer, <<" ">>, [global])),
        Told = case hd(Rest) =:= <<"count">> andalso written(File, To) of
            ok -> lists:join(" ", [Text | Rest]);
            false -> lists:join(" ", [Text | Rest]);
            {error, Why} -> [Text, " refused: ", file:format_error(Why)]
        end,
        _ = file:delete(File),
        Replica ! {copied, Query, iolist_to_binary(Told)}
    end).

%% The copy is on the disk before it is told.
written(From, To) ->
    case file:open(To, [write, exclusive, raw, binary]) of
        {ok, File} ->
            Done = case file:copy(From, {To, [raw, binary, write]}) of
                {ok, _} -> file:sync(File);
                {error, Why} -> {error, Why}
            end,
            ok = file:close(File),
            Done =:= ok orelse file:delete(To),
            Done;
        {error, Why} -> {error, Why}
    end.

%% ---- The end

program_ended(Status, S = #state{number = K, refused = Refused}) ->
    case imem_pipe:ended(K, Status, Refused) of
        {killed, Why} -> {stop, Why, S#state{phase = ended}};
        {by_itself, Why} when Status =:= 2 -> over(Why, S);
        {by_itself, Why} -> paused(Why, S)
    end.

%% Ends in a while: the supervisor starts it again.
paused(Why, S = #state{number = K}) ->
    ?LOG_WARNING(#{what => "a member of a module ends, and is started again", module => K, why => Why}, ?DOMAIN),
    _ = erlang:send_after(?PAUSE, self(), {ended, Why}),
    {noreply, S#state{phase = ended}}.

over(Why, S = #state{number = K, config = Config}) ->
    {stop, imem_server:is_over(K, Why, Config), S#state{phase = ended}}.

