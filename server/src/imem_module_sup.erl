%% The supervisor of this node's modules, and of its copies of those that are on several nodes. A module whose image is
%% refused for good ends by itself, and stays away.
-module(imem_module_sup).
-behaviour(supervisor).
-export([start_link/1, init/1, is_over/1]).

-spec start_link(imem_config:config()) -> supervisor:startlink_ret().
start_link(Config) -> supervisor:start_link({local, ?MODULE}, ?MODULE, Config).

%% A program that is killed is started again at once, however often; one that ends by itself pauses first (imem_module).
-spec init(imem_config:config()) -> {ok, {supervisor:sup_flags(), [supervisor:child_spec()]}}.
init(Config) ->
    Children = [child(K, Config) || K <- imem_config:own(Config)],
    {ok, {#{strategy => one_for_one, intensity => 100, period => 5}, Children}}.

child(K, Config) ->
    Kind = case imem_config:is_replicated(K, Config) of true -> imem_replica; false -> imem_module end,
    #{id => K, start => {Kind, start_link, [K, Config]}, restart => transient, shutdown => 10000}.

%% Whether a module of this node has ended for good.
-spec is_over(non_neg_integer()) -> boolean().
is_over(K) ->
    case lists:keyfind(K, 1, supervisor:which_children(?MODULE)) of
        {K, undefined, _, _} -> true;
        _ -> false
    end.
