%% A member of a module on several hosts that is alone, for `scripts/power-cut --log`: it puts numbers into its log, and says
%% each once it is there. When it starts it says the last one that it finds. It stands for the replica (imem_replica).
-module(imem_log_cut).
-export([main/1]).

-define(EVERY, 150).        % numbers between two snapshots

-spec main([atom()]) -> no_return().
main([Folder]) ->
    imem_counts:new(),
    Config = #{log => atom_to_list(Folder), modules => #{0 => #{nodes => [node()], snapshot_every => ?EVERY}}},
    _ = imem_members:make(Config),
    true = register(imem_module:name(0), self()),
    ok = imem_members:join(0, Config),
    {Last, Origins} = receive {'$gen_cast', {begin_with, _, #{base := Base, origins := It}}} -> {packed(Base), It} end,
    _ = imem_members:elect(0),
    Commands = imem_commands:new(0, {Origins, [node()]}),
    {Found, Others} = replayed(Last, imem_commands:put({sizes, ["x"]}, [], Commands)),
    io:format("found ~b~n", [Found]),
    go_on(Found + 1, Others).

packed(none) -> 0;
packed({_, Number}) -> binary_to_integer(Number).

%% The numbers that are in the log, until this start's own command is seen there. Each is one more than that before it.
replayed(Last, Commands) ->
    receive
        {'$gen_cast', {lines, _, _, {_, Start, 1}, [], _}} ->
            case imem_commands:held(Commands) of
                1 ->
                    {_, After} = imem_commands:seen(Start, 1, Commands),
                    case imem_commands:held(After) of 0 -> {Last, After}; 1 -> replayed(Last, After) end;
                0 -> replayed(Last, Commands)
            end;
        {'$gen_cast', {lines, _, _, _, [Line], _}} ->
            case binary_to_integer(Line) of
                Number when Number =:= Last + 1 -> replayed(Number, Commands);
                Number -> ended("~b behind ~b", [Number, Last])
            end;
        {timeout, Timer, again} ->
            {_, After} = imem_commands:again(Timer, Commands),
            replayed(Last, After)
    end.

go_on(Number, Before) ->
    Sent = imem_commands:put({ask, [integer_to_binary(Number)]}, [], Before),
    {Index, Origins, Commands} = seen(Number, Sent),
    io:format("~b~n", [Number]),
    _ = Number rem ?EVERY =:= 0 andalso imem_members:snapshot(0, Index, integer_to_binary(Number), Origins),
    go_on(Number + 1, Commands).

seen(Number, Commands) ->
    receive
        {'$gen_cast', {lines, _, Index, {_, Start, N}, [Line], Origins}} ->
            Number = binary_to_integer(Line),
            {_, After} = imem_commands:seen(Start, N, Commands),
            {Index, Origins, After};
        {timeout, Timer, again} ->
            {_, After} = imem_commands:again(Timer, Commands),
            seen(Number, After)
    end.

-spec ended(string(), [term()]) -> no_return().
ended(Words, Given) ->
    io:format("wrong: " ++ Words ++ "~n", Given),
    halt(1).
