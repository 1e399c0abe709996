%% The top supervisor. Modules, listeners and elements have supervisors of their own: what ends too often in one of them
%% starts that one anew, and leaves the others alone.
-module(imem_sup).
-behaviour(supervisor).
-export([start_link/1, init/1]).

-spec start_link(imem_config:config()) -> {ok, pid()} | {error, term()}.
start_link(Config) ->
    case supervisor:start_link({local, ?MODULE}, ?MODULE, Config) of
        {ok, Pid} -> {ok, Pid};
        ignore -> {error, ignore};
        {error, Why} -> {error, Why}
    end.

-spec init(imem_config:config()) -> {ok, {supervisor:sup_flags(), [supervisor:child_spec()]}}.
init(Config) ->
    imem_counts:new(),
    Below = fun(It) -> #{id => It, start => {It, start_link, [Config]}, type => supervisor} end,
    Metrics = #{id => imem_metrics, start => {imem_metrics, start_link, [Config]}},
    Children = [Below(imem_module_sup)] ++ [Metrics || map_get(metrics, Config) =/= none]
        ++ [Below(imem_listener_sup), Below(imem_element_sup)],
    {ok, {#{strategy => one_for_one, intensity => 10, period => 60}, Children}}.
