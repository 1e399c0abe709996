%% Starts the server in a node of its own: `erl -config FILE -s imem_server`. What is wrong is said in words, and the
%% node ends: by 2 if its configuration is, by 5 once no module of it can be opened (imem_module).
-module(imem_server).
-export([start/0, is_over/3]).

-include("imem.hrl").
-include_lib("kernel/include/logger.hrl").

-spec start() -> ok.
start() ->
    _ = application:load(imem_server),
    case imem_config:checked(application:get_all_env(imem_server)) of
        {ok, _} ->
            {ok, _} = application:ensure_all_started(imem_server, permanent),
            ok;
        {error, Words} ->
            io:format(standard_error, "imem-server: sys.config: ~ts~n", [Words]),
            halt(2)
    end.

%% Why a module, or its member here, ends for good, so that its supervisor lets it be. A node that has nothing else to
%% do ends too.
-spec is_over(non_neg_integer(), term(), imem_config:config()) -> {shutdown, {over, term()}}.
is_over(K, Why, Config) ->
    ?LOG_ERROR(#{what => "a module can't be opened here, and stays away", module => K, why => Why}, ?DOMAIN),
    _ = spawn(fun() -> timer:sleep(100), ended(Config) end),
    {shutdown, {over, Why}}.

ended(#{cluster := Cluster} = Config) ->
    Seats = case Cluster of none -> []; #{elements := All} -> [E || {E, Nodes} <- All, lists:member(node(), Nodes)] end,
    case Seats =:= [] andalso lists:all(fun imem_module_sup:is_over/1, imem_config:own(Config)) of
        true ->
            ?LOG_ERROR(#{what => "no module of this node can be opened: it ends"}, ?DOMAIN),
            init:stop(5);
        false -> ok
    end.
