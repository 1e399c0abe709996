%% Listens at an address, and gives each client that comes a process of its own (imem_client).
-module(imem_listener).
-behaviour(gen_server).
-export([start_link/2, init/1, handle_call/3, handle_cast/2, handle_info/2, terminate/2, common_name/1]).

-include_lib("kernel/include/logger.hrl").
-include("imem.hrl").

-record(state, {listener :: imem_config:listener(), socket :: imem_client:socket(), acceptor :: pid()}).

-spec start_link({pid(), imem_config:listener()}, imem_config:config()) -> gen_server:start_ret().
start_link(Given, Config) -> gen_server:start_link(?MODULE, {Given, Config}, []).

-spec init({{pid(), imem_config:listener()}, imem_config:config()}) -> {ok, #state{}} | {stop, term()}.
init({{Above, #{at := At} = Listener}, _}) ->
    process_flag(trap_exit, true),
    case listening(At, Listener) of
        {ok, Socket} ->
            ?LOG_NOTICE(#{what => "a socket is open", at => At, role => maps:get(role, Listener)}, ?DOMAIN),
            Acceptor = proc_lib:spawn_link(fun() -> accept(Socket, Listener, imem_listener_sup:clients(Above)) end),
            {ok, #state{listener = Listener, socket = Socket, acceptor = Acceptor}};
        {error, Why} ->
            ?LOG_ERROR(#{what => "a socket can't be opened", at => At, why => Why}, ?DOMAIN),
            {stop, {shutdown, {no_socket, At, Why}}}
    end.

-spec handle_call(term(), gen_server:from(), #state{}) -> {reply, unknown, #state{}}.
handle_call(_, _, S) -> {reply, unknown, S}.

-spec handle_cast(term(), #state{}) -> {noreply, #state{}}.
handle_cast(_, S) -> {noreply, S}.

-spec handle_info(term(), #state{}) -> {noreply, #state{}} | {stop, term(), #state{}}.
handle_info({'EXIT', Acceptor, Why}, S = #state{acceptor = Acceptor}) -> {stop, {acceptor, Why}, S};
handle_info(_, S) -> {noreply, S}.

-spec terminate(term(), #state{}) -> ok.
terminate(_, #state{socket = {Transport, Socket}, listener = #{at := At}}) ->
    _ = Transport:close(Socket),
    _ = case At of {unix, Path} -> file:delete(Path); _ -> ok end,
    ok.

%% ---- Opening

%% A client that has sent all still gets its answers, so a socket isn't closed with its other half.
-define(OPTIONS, [binary, {active, false}, {packet, raw}, {backlog, 1024}, {exit_on_close, false},
    {send_timeout_close, true}]).
-define(BY_IP, [{reuseaddr, true}, {nodelay, true}]).

listening({tls, Ip, Port}, #{tls := Tls} = Listener) ->
    Certain = [{verify, verify_peer}, {fail_if_no_peer_cert, true}, {versions, ['tlsv1.3', 'tlsv1.2']}],
    as(ssl, ssl:listen(Port, [{ip, Ip} | ?BY_IP] ++ ?OPTIONS ++ patience(Listener) ++ Tls ++ Certain));
listening({tcp, Ip, Port}, Listener) ->
    Family = case tuple_size(Ip) of 4 -> inet; 8 -> inet6 end,
    as(gen_tcp, gen_tcp:listen(Port, [Family, {ip, Ip} | ?BY_IP] ++ ?OPTIONS ++ patience(Listener)));
listening({fd, Number}, Listener) ->
    as(gen_tcp, gen_tcp:listen(0, [local, {fd, Number}] ++ ?OPTIONS ++ patience(Listener)));
listening({unix, Path}, #{mode := Mode} = Listener) ->
    case gen_tcp:connect({local, Path}, 0, [], 1000) of
        {ok, Other} ->
            ok = gen_tcp:close(Other),
            {error, eaddrinuse};
        {error, _} -> named(Path, Mode, ?OPTIONS ++ patience(Listener))
    end.

patience(#{patience := Patience}) -> [{send_timeout, Patience}].

%% The socket has its mode before it has its name, so nobody comes in meanwhile; an old one of the name is replaced.
named(Path, Mode, Options) ->
    New = Path ++ ".new",
    _ = file:delete(New),
    case gen_tcp:listen(0, [{ifaddr, {local, New}} | Options]) of
        {ok, Socket} ->
            case {file:change_mode(New, Mode), file:rename(New, Path)} of
                {ok, ok} -> {ok, {gen_tcp, Socket}};
                {Changed, Renamed} ->
                    _ = gen_tcp:close(Socket),
                    {error, {Changed, Renamed}}
            end;
        {error, Why} -> {error, Why}
    end.

as(Transport, {ok, Socket}) -> {ok, {Transport, Socket}};
as(_, {error, Why}) -> {error, Why}.

%% ---- Clients

accept(Socket, Listener, Clients) ->
    case accepted(Socket) of
        {ok, Client} ->
            let_in(Client, Listener, Clients),
            accept(Socket, Listener, Clients);
        {error, closed} -> ok;
        {error, Why} ->                     % As where there are too many open files: some are closed by and by.
            ?LOG_WARNING(#{what => "a client isn't accepted", why => Why}, ?DOMAIN),
            timer:sleep(100),
            accept(Socket, Listener, Clients)
    end.

accepted({gen_tcp, Socket}) -> as(gen_tcp, gen_tcp:accept(Socket));
accepted({ssl, Socket}) -> as(ssl, ssl:transport_accept(Socket)).

let_in({Transport, Raw} = Client, #{clients := Most, role := Role}, Clients) ->
    case proplists:get_value(active, supervisor:count_children(Clients)) < Most of
        true ->
            {ok, Pid} = supervisor:start_child(Clients, []),
            case Transport:controlling_process(Raw, Pid) of
                ok -> imem_client:go(Pid, Client);
                {error, _} -> supervisor:terminate_child(Clients, Pid)
            end;
        false ->
            imem_counts:add({refused_clients, Role}),
            Text = ["error 0: this socket has ", integer_to_binary(Most), " clients\n"],
            _ = Transport =:= gen_tcp andalso gen_tcp:send(Raw, Text),
            Transport:close(Raw)
    end.

%% The common name of a certificate. The records are those of public_key, whose header is in erlang-dev alone.
-spec common_name(public_key:der_encoded()) -> string() | none.
common_name(Certificate) ->
    Subject = element(7, element(2, public_key:pkix_decode_cert(Certificate, otp))),
    {rdnSequence, Names} = Subject,
    case [Value || {'AttributeTypeAndValue', {2, 5, 4, 3}, Value} <- lists:append(Names)] of
        [{_, Name} | _] -> named_by(unicode:characters_to_list(Name));
        _ -> none
    end.

named_by(Name) when is_list(Name) -> Name;
named_by(_) -> none.
