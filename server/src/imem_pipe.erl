%% A program that is asked line by line, by pipes. Nobody ever waits for it: what its pipe has no room for is kept, and
%% is written later. Its answers come in the order of the lines, so what each line is for is kept in a queue.
-module(imem_pipe).
-export([open/3, port/1, say/2, wrote/1, heard/2, answered/1, piped/1, has_room/1, look_after/3, ended/3, close/1]).
-export_type([pipe/0]).

-include("imem.hrl").
-include_lib("kernel/include/logger.hrl").

-record(pipe, {
    port :: port(),
    lines = queue:new() :: queue:queue(term()),     % what those are for whose answers come next
    length = 0 :: non_neg_integer(),
    unsent = [] :: iodata(),                        % what the pipe had no room for
    buffer = <<>> :: binary(),                      % of an answer that isn't whole yet
    heard :: integer()                              % when the program last said something
}).

-opaque pipe() :: #pipe{}.

%% Starts a program. Its owner gets the port's messages, and `pipe_has_room`.
-spec open(file:filename(), [string()], [{string(), string()}]) -> pipe().
open(Program, Words, Env) ->
    Port = open_port({spawn_executable, Program},
        [{args, Words}, {env, Env}, stream, binary, exit_status, use_stdio]),
    #pipe{port = Port, heard = now_ms()}.

-spec port(pipe()) -> port().
port(#pipe{port = Port}) -> Port.

-spec say([{term(), iodata()}], pipe()) -> pipe().
say([], P) -> P;
say(Lines, P = #pipe{lines = Before, length = Length, heard = Heard, unsent = Unsent}) ->
    Since = case Length of 0 -> now_ms(); _ -> Heard end,
    Longer = queue:join(Before, queue:from_list([For || {For, _} <- Lines])),
    Text = [[Line, $\n] || {_, Line} <- Lines],
    After = P#pipe{lines = Longer, length = Length + length(Lines), heard = Since},
    case Unsent of
        [] -> written(Text, After);
        _ -> After#pipe{unsent = [Unsent | Text]}
    end.

%% The pipe may have room again.
-spec wrote(pipe()) -> pipe().
wrote(P = #pipe{unsent = Unsent}) -> written(Unsent, P#pipe{unsent = []}).

written([], P) -> P;
written(Text, P = #pipe{port = Port}) ->
    try port_command(Port, Text, [nosuspend]) of
        true -> P;
        false ->
            _ = erlang:send_after(2, self(), pipe_has_room),
            P#pipe{unsent = Text}
    catch error:badarg -> P     % It has ended, and its status comes.
    end.

%% The whole lines that the program has said.
-spec heard(binary(), pipe()) -> {[binary()], pipe()}.
heard(Data, P = #pipe{buffer = Buffer}) ->
    [Rest | Lines] = lists:reverse(binary:split(<<Buffer/binary, Data/binary>>, <<"\n">>, [global])),
    {lists:reverse(Lines), P#pipe{buffer = Rest, heard = now_ms()}}.

%% What the line was for whose answer this is.
-spec answered(pipe()) -> {term(), pipe()} | empty.
answered(P = #pipe{lines = Lines, length = Length}) ->
    case queue:out(Lines) of
        {{value, For}, Others} -> {For, P#pipe{lines = Others, length = Length - 1}};
        {empty, _} -> empty
    end.

%% How many lines aren't answered.
-spec piped(pipe()) -> non_neg_integer().
piped(#pipe{length = Length}) -> Length.

-spec has_room(pipe()) -> boolean().
has_room(#pipe{unsent = Unsent}) -> Unsent =:= [].

%% Kills a module's program that has lines before it and says nothing for so many milliseconds.
-spec look_after(non_neg_integer(), pos_integer(), pipe() | undefined) -> pipe() | undefined.
look_after(_, _, undefined) -> undefined;
look_after(_, _, P = #pipe{length = 0}) -> P;
look_after(K, Within, P = #pipe{port = Port, heard = Heard}) ->
    case now_ms() - Heard > Within andalso erlang:port_info(Port, os_pid) of
        {os_pid, Pid} ->
            ?LOG_ERROR(#{what => "a program doesn't answer and is killed", module => K, pid => Pid}, ?DOMAIN),
            _ = os:cmd("kill -KILL " ++ integer_to_list(Pid)),
            P#pipe{heard = now_ms()};
        _ -> P
    end.

%% How a module's program ended, by its status and the refusal that it said. Of a pipe that broke first there is no
%% status: it was killed.
-spec ended(non_neg_integer(), term(), binary() | none) -> {killed | by_itself, {program_ended, term(), binary() | none}}.
ended(K, Status, Refused) ->
    ?LOG_WARNING(#{what => "a program ended", module => K, status => Status, refused => Refused}, ?DOMAIN),
    How = case is_integer(Status) andalso Status =< 128 of true -> by_itself; false -> killed end,
    {How, {program_ended, Status, Refused}}.

%% The program answers what it has, and ends.
-spec close(pipe()) -> ok.
close(#pipe{port = Port}) ->
    _ = catch port_close(Port),
    ok.

now_ms() -> erlang:monotonic_time(millisecond).
