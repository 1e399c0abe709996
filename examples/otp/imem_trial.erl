%% What `scripts/cluster` adds to a cluster: messages that are lost or come twice, a program that tells when an element
%% is through, and an end. `#{program, node, lose, double}` is what it is told as the arguments of a program.
-module(imem_trial).
-behaviour(imem_program).
-export([block/1, rounds/3, written/3, ended/3, send/2, guard/1, hear/1]).

-type arguments() :: #{program := {module(), term()}, node := node(), lose := float(), double := float()}.

-spec block(arguments()) -> {i | m, pos_integer()}.
block(#{program := {Module, Arguments}}) -> Module:block(Arguments).

-spec rounds(imem_lines:element(), pos_integer(), arguments()) -> imem_program:rounds().
rounds(E, Many, #{program := {Module, Arguments}}) -> Module:rounds(E, Many, Arguments).

-spec written(arguments(), none | non_neg_integer(), none | non_neg_integer()) -> non_neg_integer().
written(#{program := {Module, Arguments}}, Read, Before) -> Module:written(Arguments, Read, Before).

%% Tells the trial's node that an element is done, since when it was at work, and how long modules were away.
-spec ended(imem_lines:element(), imem_element:report(), arguments()) -> ok.
ended(E, {Since, Returns} = Report, #{node := Node} = Arguments) ->
    {?MODULE, Node} ! {done, self(), E, Since, erlang:system_time(millisecond), Returns},
    receive noted -> ok after 300 -> ended(E, Report, Arguments) end.

%% Sends a message, or none, or two. The configuration names it as `send`.
-spec send({atom(), node()} | pid(), term()) -> ok.
send(Where, Message) ->
    {ok, #{program := {?MODULE, #{lose := Lose, double := Double}}}} = application:get_env(imem_server, cluster),
    case rand:uniform() of
        X when X < Lose -> ok;
        X when X < Lose + Double -> imem_config:send(Where, Message), imem_config:send(Where, Message);
        _ -> imem_config:send(Where, Message)
    end.

%% Ends the node when a file is gone, and at a time of the clock: so nothing outlives a trial. For `erl -s`.
-spec guard([atom()]) -> pid().
guard([File, Until]) -> spawn(fun() -> guard_until(atom_to_list(File), list_to_integer(atom_to_list(Until))) end).

guard_until(File, Until) ->
    case filelib:is_regular(File) andalso erlang:system_time(second) < Until of
        true -> timer:sleep(200), guard_until(File, Until);
        false -> init:stop()
    end.

%% The trial's node prints a line for each that is done.
-spec hear([atom()]) -> no_return().
hear(Guarded) ->
    _ = guard(Guarded),
    true = register(?MODULE, self()),
    hear_more().

hear_more() ->
    receive
        {done, From, E, Since, Until, Returns} ->
            Times = [io_lib:format(" ~s:~b", [By, Ms]) || {By, Ms} <- Returns],
            io:format("done ~b ~s ~b ~b~s~n", [E, node(From), Since, Until, Times]),
            From ! noted
    end,
    hear_more().
