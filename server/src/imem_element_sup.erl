%% The supervisor of this node's elements. One that is done stays so, and so does one that can't go on.
-module(imem_element_sup).
-behaviour(supervisor).
-export([start_link/1, init/1]).

-spec start_link(imem_config:config()) -> supervisor:startlink_ret().
start_link(Config) -> supervisor:start_link({local, ?MODULE}, ?MODULE, Config).

-spec init(imem_config:config()) -> {ok, {supervisor:sup_flags(), [supervisor:child_spec()]}}.
init(Config) ->
    {ok, {#{strategy => one_for_one, intensity => 20, period => 10}, [child(E, Config) || E <- own(Config)]}}.

own(#{cluster := none}) -> [];
own(#{cluster := #{elements := All}}) -> [E || {E, Nodes} <- All, lists:member(node(), Nodes)].

child(E, Config) ->
    #{id => E, start => {imem_element, start_link, [E, Config]}, restart => transient, shutdown => 1000}.
