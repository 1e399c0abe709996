%% The application: checks its configuration, and starts the supervisors.
-module(imem_app).
-behaviour(application).
-export([start/2, stop/1]).

-spec start(application:start_type(), term()) -> {ok, pid()} | {error, term()}.
start(_, _) ->
    case imem_config:checked(application:get_all_env(imem_server)) of
        {ok, Config} -> imem_sup:start_link(Config);
        {error, Words} -> {error, {bad_config, Words}}
    end.

-spec stop(term()) -> ok.
stop(_) -> ok.
