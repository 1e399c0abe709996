%% What this node's member of a module asks of the log: its commands, in the order of their numbers, each kept until it
%% is seen in the log. One that isn't seen in a while was lost, or whoever leads is away or slow; so all that is kept is
%% sent again, to whoever leads now. The while follows the time that commands take, and grows.
-module(imem_commands).
-export([new/2, put/3, held/1, seen/3, rejected/3, again/2, leads/1]).
-export_type([commands/0]).

-include("imem.hrl").

-define(FIRST_TIME, 100).       % milliseconds that a command takes, until one was measured
-define(LEAST_PAUSE, 50).
-define(MOST_PAUSE, 4000).
-define(UNHEARD, 5000).         % a leader that takes nothing for so long is to be another

-record(command, {
    number :: pos_integer(),
    what :: what(),
    queries :: [#query{}],
    at :: integer(),                                % when it was first sent
    times = 1 :: pos_integer()
}).

-record(commands, {
    module :: non_neg_integer(),
    nodes :: [node()],
    start :: imem_machine:start(),
    next = 1 :: pos_integer(),                      % the number of the next command
    kept = queue:new() :: queue:queue(#command{}),
    target :: node() | undefined,                   % who is taken for the leader
    time = ?FIRST_TIME :: non_neg_integer(),        % that a command takes, smoothed
    pause = ?LEAST_PAUSE :: pos_integer(),          % until what is kept is sent again
    sent = 0 :: integer(),                          % when it was sent, or something of it was seen
    stands = 0 :: integer(),                        % since when nothing of it was seen
    timer :: reference() | undefined
}).

-opaque commands() :: #commands{}.
-type what() :: {sizes, [string()]} | {ask, [binary()]}.

%% A start of a member: greater than each before, whatever the clock says.
-spec new(non_neg_integer(), {imem_machine:origins(), [node()]}) -> commands().
new(K, {Origins, Nodes}) ->
    Before = case Origins of #{node() := {Start, _}} -> Start; _ -> none end,
    #commands{module = K, nodes = Nodes, start = start_behind(Before), target = known(K)}.

start_behind(none) -> {erlang:system_time(), rand:uniform(1 bsl 32)};
start_behind({Time, _}) -> {max(erlang:system_time(), Time + 1), rand:uniform(1 bsl 32)}.

known(K) -> case imem_members:leader(K) of undefined -> undefined; {_, Node} -> Node end.

%% How many aren't seen in the log.
-spec held(commands()) -> non_neg_integer().
held(#commands{kept = Kept}) -> queue:len(Kept).

%% Sends a command, which has these queries. The owner gets {timeout, Timer, again} for `again`.
-spec put(what(), [#query{}], commands()) -> commands().
put(What, Queries, C = #commands{next = Number, kept = Kept}) ->
    Now = now_ms(),
    Command = #command{number = Number, what = What, queries = Queries, at = Now},
    After = C#commands{next = Number + 1, kept = queue:in(Command, Kept)},
    send(Command, After),
    case queue:is_empty(Kept) of
        true -> timed(After#commands{pause = pause(After), sent = Now, stands = Now});
        false -> After
    end.

send(#command{number = Number, what = {Kind, What}}, #commands{module = K, start = Start, target = Target}) ->
    To = case Target of undefined -> node(); _ -> Target end,
    ra:pipeline_command(imem_members:id(K, To), {Kind, {node(), Start, Number}, What}, Number, normal).

pause(#commands{time = Time}) -> max(?LEAST_PAUSE, min(?MOST_PAUSE, 4 * Time)).

timed(C = #commands{timer = undefined, pause = Pause, sent = Sent}) ->
    C#commands{timer = erlang:start_timer(max(1, Sent + Pause - now_ms()), self(), again)};
timed(C) -> C.

%% A command of this node is in the log: the queries that it has, if it is of this start.
-spec seen(imem_machine:start(), pos_integer(), commands()) -> {[#query{}], commands()}.
seen(Start, Number, C = #commands{start = Start, kept = Kept, time = Before}) ->
    {{value, #command{number = Number, queries = Queries, at = At, times = Times}}, Rest} = queue:out(Kept),
    Now = now_ms(),
    Time = case Times of 1 -> (7 * Before + Now - At) div 8; _ -> Before end,
    After = C#commands{kept = Rest, time = Time, sent = Now, stands = Now},
    {Queries, After#commands{pause = pause(After)}};
seen(Start, _, C = #commands{start = Mine}) when Start < Mine -> {[], C};
seen(Start, _, C = #commands{kept = Kept}) ->
    %% The clock was set back: a start before this one has a later time. So this one begins anew, behind it.
    {Numbered, Next} = lists:mapfoldl(fun(Command, N) -> {Command#command{number = N}, N + 1} end, 1, queue:to_list(Kept)),
    {[], sent_again(C#commands{start = start_behind(Start), next = Next, kept = queue:from_list(Numbered)})}.

%% Whoever was asked doesn't lead. What is kept is sent once to whom it names.
-spec rejected(imem_members:id() | undefined, pos_integer(), commands()) -> commands().
rejected(undefined, _, C) -> C;
rejected({_, Leader}, Number, C = #commands{kept = Kept, target = Target}) ->
    case queue:peek(Kept) of
        {value, #command{number = Number}} when Leader =/= Target -> sent_again(C#commands{target = Leader});
        _ -> C
    end.

%% This node leads.
-spec leads(commands()) -> commands().
leads(C) -> sent_again(C#commands{target = node()}).

%% A while is over. Tells since how long nothing was seen of what is kept, if that is too long.
-spec again(reference(), commands()) -> {is_heard | unheard, commands()}.
again(Timer, C = #commands{timer = Timer, kept = Kept, sent = Sent, pause = Pause, stands = Stands}) ->
    Now = now_ms(),
    Begun = C#commands{timer = undefined},
    case queue:is_empty(Kept) of
        true -> {is_heard, Begun};
        false when Sent + Pause > Now -> {is_heard, timed(Begun)};
        false ->
            After = timed(sent_again(turned(Begun#commands{pause = min(2 * Pause, ?MOST_PAUSE)}))),
            {case Now - Stands > ?UNHEARD of true -> unheard; false -> is_heard end, After}
    end;
again(_, C) -> {is_heard, C}.

%% Asks the leader that this node knows of, and else any member: one that doesn't lead names who does.
turned(C = #commands{module = K, target = Target, nodes = Nodes}) ->
    case known(K) of
        Known when Known =/= undefined, Known =/= Target -> C#commands{target = Known};
        _ -> C#commands{target = lists:nth(rand:uniform(length(Nodes)), Nodes)}
    end.

sent_again(C = #commands{module = K, kept = Kept}) ->
    imem_counts:add({sent_again, K}, queue:len(Kept)),
    Again = [Command#command{times = Times + 1} || #command{times = Times} = Command <- queue:to_list(Kept)],
    lists:foreach(fun(Command) -> send(Command, C) end, Again),
    C#commands{kept = queue:from_list(Again), sent = now_ms()}.

now_ms() -> erlang:monotonic_time(millisecond).
