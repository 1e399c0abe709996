%% The supervisor of the sockets: below it one of each socket, with that of its clients. A socket that ends leaves its
%% clients alone, and is opened anew.
-module(imem_listener_sup).
-behaviour(supervisor).
-export([start_link/1, start_one/2, start_clients/2, clients/1, count/1, init/1]).

-type part() :: {all, imem_config:config()} | {one | clients, imem_config:listener(), imem_config:config()}.

-spec start_link(imem_config:config()) -> supervisor:startlink_ret().
start_link(Config) -> supervisor:start_link({local, ?MODULE}, ?MODULE, {all, Config}).

-spec start_one(imem_config:listener(), imem_config:config()) -> supervisor:startlink_ret().
start_one(Listener, Config) -> supervisor:start_link(?MODULE, {one, Listener, Config}).

-spec start_clients(imem_config:listener(), imem_config:config()) -> supervisor:startlink_ret().
start_clients(Listener, Config) -> supervisor:start_link(?MODULE, {clients, Listener, Config}).

%% The supervisor of the clients beside a listener.
-spec clients(pid()) -> pid().
clients(Above) ->
    [Pid] = [Pid || {clients, Pid, _, _} <- supervisor:which_children(Above), is_pid(Pid)],
    Pid.

%% How many clients a socket has.
-spec count(imem_config:at()) -> non_neg_integer().
count(At) ->
    case lists:keyfind(At, 1, supervisor:which_children(?MODULE)) of
        {At, Above, _, _} when is_pid(Above) -> proplists:get_value(active, supervisor:count_children(clients(Above)));
        _ -> 0
    end.

-spec init(part()) -> {ok, {supervisor:sup_flags(), [supervisor:child_spec()]}}.
init({all, #{listeners := Listeners} = Config}) ->
    Child = fun(#{at := At} = Listener) ->
        #{id => At, start => {?MODULE, start_one, [Listener, Config]}, type => supervisor}
    end,
    {ok, {#{strategy => one_for_one, intensity => 10, period => 60}, lists:map(Child, Listeners)}};
init({one, Listener, Config}) ->
    Clients = #{id => clients, start => {?MODULE, start_clients, [Listener, Config]}, type => supervisor},
    Socket = #{id => socket, start => {imem_listener, start_link, [{self(), Listener}, Config]}},
    {ok, {#{strategy => rest_for_one, intensity => 5, period => 10}, [Clients, Socket]}};
init({clients, Listener, Config}) ->
    Start = {imem_client, start_link, [Listener, Config]},
    Client = #{id => client, start => Start, restart => temporary, shutdown => 1000},
    {ok, {#{strategy => simple_one_for_one}, [Client]}}.
