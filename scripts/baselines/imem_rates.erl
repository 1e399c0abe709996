%% Clients that each have one request under way, for `scripts/cluster --replicas 3 --rates`: of a module, puts and takes of
%% a cell of each one's own; of etcd, puts of a key of each one's own, by gRPC. It prints how many a second there were, and
%% the middle and the 99th of a hundred of the times in microseconds.
-module(imem_rates).
-export([module/1, etcd/1]).

%% For `erl -s`: how many clients, how many seconds, and the module's nodes.
module([Clients, Seconds | Nodes]) ->
    {ok, Started} = begun(Nodes),
    measured(Clients, Seconds, fun(E) -> {Started, E} end, fun by_module/2).

%% The same, with the ports of etcd on this machine.
etcd([Clients, Seconds | Ports]) ->
    Connect = fun(E) -> connected(number(lists:nth(1 + E rem length(Ports), Ports))) end,
    measured(Clients, Seconds, Connect, fun by_etcd/2).

number(Atom) -> list_to_integer(atom_to_list(Atom)).

measured(Clients, Seconds, Connect, Ask) ->
    Self = self(),
    Client = fun(E) ->
        Connection = Connect(E),
        _ = [Ask(N, Connection) || N <- lists:seq(1, 40)],
        Self ! ready,
        Until = receive {until, It} -> It end,
        Self ! {times, times(41, Until, Connection, Ask, [])}
    end,
    Pids = [spawn_link(fun() -> Client(E) end) || E <- lists:seq(1, number(Clients))],
    [receive ready -> ok end || _ <- Pids],
    Until = now_us() + 1000000 * number(Seconds),
    [Pid ! {until, Until} || Pid <- Pids],
    Times = lists:sort(lists:append([receive {times, It} -> It end || _ <- Pids])),
    At = fun(Part) -> lists:nth(max(1, round(Part * length(Times))), Times) end,
    io:format("rate ~b ~b ~b~n", [length(Times) div number(Seconds), At(0.5), At(0.99)]),
    halt(0).

times(N, Until, Connection, Ask, Times) ->
    case now_us() of
        Now when Now >= Until -> Times;
        Now ->
            Ask(N, Connection),
            times(N + 1, Until, Connection, Ask, [now_us() - Now | Times])
    end.

now_us() -> erlang:monotonic_time(microsecond).

%% ---- A module

%% The cells are made once all nodes answer; each client asks a node of its own, in turn.
begun(Nodes) ->
    [told(Node, ["0.1 alloc m 64"]) || Node <- Nodes],
    {ok, Nodes}.

by_module(N, {Nodes, E}) ->
    Node = lists:nth(1 + E rem length(Nodes), Nodes),
    Cell = integer_to_list(E - 1),
    Request = [integer_to_list(E), $., integer_to_list(N), case N rem 2 of 1 -> [" put ", Cell, " 7"]; 0 -> [" take ", Cell] end],
    N rem 16 =:= 0 andalso ask(Node, ["confirm ", integer_to_list(E), " ", integer_to_list(N)]),
    told(Node, Request).

ask(Node, Line) ->
    Key = make_ref(),
    gen_server:cast({imem_module_0, Node}, {ask, self(), [{Key, imem_lines:asked(Line)}]}),
    Key.

told(Node, Line) -> hear(ask(Node, Line), Node, Line).

hear(Key, Node, Line) ->
    receive
        {imem_told, _, Answers} ->
            case lists:keyfind(Key, 1, Answers) of
                {Key, _} -> ok;
                false -> hear(Key, Node, Line)
            end
    after 5000 -> told(Node, Line)
    end.

%% ---- etcd: HTTP/2 with no compression of heads, one stream after another

connected(Port) ->
    {ok, Socket} = gen_tcp:connect({127, 0, 0, 1}, Port, [binary, {active, false}, {nodelay, true}]),
    ok = gen_tcp:send(Socket, [<<"PRI * HTTP/2.0\r\n\r\nSM\r\n\r\n">>, frame(4, 0, 0, <<>>), frame(8, 0, 0, <<16#7ff00000:32>>)]),
    Socket.

frame(Type, Flags, Stream, Text) ->
    Whole = iolist_to_binary(Text),
    [<<(byte_size(Whole)):24, Type, Flags, 0:1, Stream:31>>, Whole].

head(Name, Value) -> [0, byte_size(Name), Name, byte_size(Value), Value].

%% A put of 8 bytes under a key of 8: field 1 and field 2 of its request.
by_etcd(N, Socket) ->
    Stream = 2 * N - 1,
    Heads = [head(Name, Value) || {Name, Value} <- [{<<":method">>, <<"POST">>}, {<<":scheme">>, <<"http">>},
        {<<":path">>, <<"/etcdserverpb.KV/Put">>}, {<<":authority">>, <<"localhost">>}, {<<"te">>, <<"trailers">>},
        {<<"content-type">>, <<"application/grpc">>}]],
    {ok, {_, Port}} = inet:sockname(Socket),
    Put = <<10, 8, Port:64, 18, 8, N:64>>,
    ok = gen_tcp:send(Socket, [frame(1, 4, Stream, Heads), frame(0, 1, Stream, [<<0, (byte_size(Put)):32>>, Put])]),
    answered(Stream, none, Socket).

answered(Stream, Before, Socket) ->
    {ok, <<Length:24, Type, Flags, _:1, Of:31>>} = gen_tcp:recv(Socket, 9),
    {ok, Text} = case Length of 0 -> {ok, <<>>}; _ -> gen_tcp:recv(Socket, Length) end,
    case Type of
        1 when Of =:= Stream, Flags band 1 =:= 1 -> data = Before;     % Heads behind the data: it is answered.
        0 when Of =:= Stream -> answered(Stream, data, Socket);
        4 when Flags band 1 =:= 0 ->
            ok = gen_tcp:send(Socket, frame(4, 1, 0, <<>>)),
            answered(Stream, Before, Socket);
        6 when Flags band 1 =:= 0 ->
            ok = gen_tcp:send(Socket, frame(6, 1, 0, Text)),
            answered(Stream, Before, Socket);
        _ -> answered(Stream, Before, Socket)
    end.
