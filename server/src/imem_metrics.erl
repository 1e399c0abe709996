%% What operators ask by HTTP: `/metrics`, in the text form that Prometheus reads, and `/health`, which is well if each
%% module of this node answers `count` in time. `inets` is the server.
-module(imem_metrics).
-behaviour(gen_server).
-export([start_link/1, init/1, handle_call/3, handle_cast/2, handle_info/2, do/1]).

-include_lib("inets/include/httpd.hrl").

-define(WITHIN, 5000).

-record(state, {server :: pid()}).

-spec start_link(imem_config:config()) -> gen_server:start_ret().
start_link(Config) -> gen_server:start_link({local, ?MODULE}, ?MODULE, Config, []).

-spec init(imem_config:config()) -> {ok, #state{}} | {stop, term()}.
init(#{metrics := {Ip, Port}} = Config) ->
    process_flag(trap_exit, true),
    persistent_term:put(?MODULE, Config),
    Root = filename:dirname(code:which(?MODULE)),
    Family = case tuple_size(Ip) of 4 -> inet; 8 -> inet6 end,
    Options = [{port, Port}, {bind_address, Ip}, {ipfamily, Family}, {server_name, "imem"}, {server_root, Root},
        {document_root, Root}, {modules, [?MODULE]}, {max_clients, 16}],
    case inets:start(httpd, Options, stand_alone) of
        {ok, Server} -> {ok, #state{server = Server}};
        {error, Why} -> {stop, {shutdown, {no_metrics, Ip, Port, Why}}}
    end.

-spec handle_call(term(), gen_server:from(), #state{}) -> {reply, unknown, #state{}}.
handle_call(_, _, S) -> {reply, unknown, S}.

-spec handle_cast(term(), #state{}) -> {noreply, #state{}}.
handle_cast(_, S) -> {noreply, S}.

-spec handle_info(term(), #state{}) -> {noreply, #state{}} | {stop, term(), #state{}}.
handle_info({'EXIT', Server, Why}, S = #state{server = Server}) -> {stop, Why, S};
handle_info(_, S) -> {noreply, S}.

%% A callback of inets.
-spec do(#mod{}) -> {proceed, [{response, {response, list(), iodata()}}]}.
do(#mod{method = "GET", request_uri = "/metrics"}) -> response(200, metrics(persistent_term:get(?MODULE)));
do(#mod{method = "GET", request_uri = "/health"}) ->
    Config = persistent_term:get(?MODULE),
    case [K || K <- imem_config:own(Config), not is_answered(imem_module:asked(K, ["count"], ?WITHIN, Config))] of
        [] -> response(200, "well\n");
        Away -> response(503, [["module ", integer_to_list(K), " doesn't answer\n"] || K <- Away])
    end;
do(_) -> response(404, "there are /metrics and /health\n").

response(Code, Text) ->
    Body = iolist_to_binary(Text),
    Length = integer_to_list(byte_size(Body)),
    Head = [{code, Code}, {content_type, "text/plain; version=0.0.4"}, {content_length, Length}],
    {proceed, [{response, {response, Head, Body}}]}.

is_answered({ok, _}) -> true;
is_answered({error, _}) -> false.

%% What each module's image here answers, `none` where it gives no answer in time.
told(Lines, Config) ->
    [{K, case imem_module:looked(K, Lines, ?WITHIN, Config) of {ok, Answers} -> Answers; {error, _} -> none end}
        || K <- imem_config:own(Config)].

%% ---- Metrics

-spec metrics(imem_config:config()) -> iolist().
metrics(#{listeners := Listeners} = Config) ->
    Modules = [{K, looks(K, Answers, Config)} || {K, Answers} <- told(["about", "stat"], Config)],
    Numbers = [K || {K, _} <- Modules],
    Roles = lists:usort([Role || #{role := Role} <- Listeners]),
    IsUp = fun(none) -> 0; (_) -> 1 end,
    Of = fun(Key) -> [{K, map_get(Key, Looks)} || {K, Looks} <- Modules, Looks =/= none] end,
    Counted = fun(Count) -> [{K, imem_counts:value({Count, K})} || K <- Numbers] end,
    OfRoles = fun(Count) -> [{Role, imem_counts:value({Count, Role})} || Role <- Roles] end,
    [
        metric("imem_up", gauge, "1 if the module answers", [{K, IsUp(Looks)} || {K, Looks} <- Modules]),
        [metric(Name, Type, Help, Of(Key)) || {Name, Type, Help, Key} <- looked()],
        [metric(Name, counter, Help, Counted(Count)) || {Name, Help, Count} <- counted()],
        metric("imem_syncs_total", counter, "Two for each group: the least that there were since the server started",
            [{K, 2 * imem_counts:value({groups, K})} || K <- Numbers]),
        roles("imem_clients", gauge, "Clients that are there", [{Role, clients(Role, Listeners)} || Role <- Roles]),
        [roles(Name, counter, Help, OfRoles(Count)) || {Name, Help, Count} <- of_roles()]
    ].

looked() -> [
    {"imem_commands_total", counter, "Commands accepted since the image was formatted", <<"count">>},
    {"imem_journal_room", gauge, "Commands that the journal has room for", <<"room">>},
    {"imem_cells", gauge, "Cells of the image", <<"cells">>},
    {"imem_cells_full", gauge, "Cells that are full", <<"full">>},
    {"imem_waiters", gauge, "Requests that wait", <<"deferred">>},
    {"imem_entries_kept", gauge, "Answers that are kept", <<"kept">>},
    {"imem_windows_stuck", gauge, "Elements whose window is full behind a request that waits", stuck}
].

counted() -> [
    {"imem_starts_total", "Starts of the program", starts},
    {"imem_groups_total", "Groups of commands that were answered, as far as they were read apart", groups},
    {"imem_lines_total", "Lines that were asked", asked},
    {"imem_repeats_total", "Lines that were under way when they were asked again", repeated}
].

of_roles() -> [
    {"imem_clients_total", "Clients that came", clients},
    {"imem_clients_refused_total", "Clients that found no room", refused_clients},
    {"imem_clients_let_go_total", "Clients that didn't read", let_go},
    {"imem_wrong_lines_total", "Lines that weren't asked, as they were wrong or not allowed", wrong_lines}
].

metric(Name, Type, Help, Values) ->
    family(Name, Type, Help, "module", [{integer_to_list(K), Value} || {K, Value} <- Values]).

roles(Name, Type, Help, Values) ->
    family(Name, Type, Help, "role", [{atom_to_list(Role), Value} || {Role, Value} <- Values]).

family(Name, Type, Help, Label, Values) ->
    ["# HELP ", Name, " ", Help, "\n# TYPE ", Name, " ", atom_to_list(Type), "\n"
        | [[Name, "{", Label, "=\"", Of, "\"} ", integer_to_list(Value), "\n"] || {Of, Value} <- Values]].

clients(Role, Listeners) ->
    lists:sum([imem_listener_sup:count(At) || #{at := At, role := Of} <- Listeners, Of =:= Role]).

%% What `about` and `stat` say, and how many windows are stuck.
looks(_, none, _) -> none;
looks(K, [About, Stat], Config) ->
    Told = maps:merge(pairs(Stat), pairs(About)),
    case stuck(K, map_get(<<"elements">>, Told), Config) of
        none -> none;
        Stuck -> Told#{stuck => Stuck}
    end.

pairs(Answer) ->
    [_ | Words] = binary:split(Answer, <<" ">>, [global]),
    paired(Words, #{}).

paired([Word, Number | Words], Found) -> paired(Words, Found#{Word => binary_to_integer(Number)});
paired([], Found) -> Found.

stuck(K, Elements, Config) ->
    Numbers = lists:seq(0, Elements - 1),
    case imem_module:looked(K, [["window ", integer_to_list(E)] || E <- Numbers], ?WITHIN, Config) of
        {ok, Windows} ->
            Full = [[E, $., Base] || Window <- Windows, {E, Base} <- full(binary:split(Window, <<" ">>, [global]))],
            waiting(imem_module:looked(K, [["collect " | Waiter] || Waiter <- Full], ?WITHIN, Config));
        {error, _} -> none
    end.

full([E, <<"window">>, Base, Next]) -> [{E, Base} || binary_to_integer(Next) - binary_to_integer(Base) =:= 64];
full(_) -> [].

waiting({ok, Answers}) -> length([Answer || Answer <- Answers, binary:match(Answer, <<" waiting">>) =/= nomatch]);
waiting({error, _}) -> none.
