%% A module of the memory: an image, served by `imem serve`, that processes of any node ask.
%%
%% {ask, From, [{Key, Asked}]} asks lines; {imem_told, K, [{Key, Answer}]} tells what the module K answered, and
%% {imem_told, K, [{{now, E, N}, Answer}]} what a request that waited is answered later, to whoever was told last that
%% it waits. Some lines at a time stand in the program's pipe, from each who asks in turn, so nobody keeps others
%% waiting; the program puts up to 16 of them on the disk as one group. A line that is under way isn't asked again.
%%
%% If the program ends, the module ends, the supervisor starts both anew, and who asked asks again: a repeat acts once.
%% Nothing is kept here but who waits. A module on several nodes is asked in the same way (imem_replica).
-module(imem_module).
-behaviour(gen_server).
-export([start_link/2, name/1, at/3, ask/4, asked/4, looked/4, tell/3, checks/2, is_as_wanted/3]).
-export([init/1, handle_continue/2, handle_call/3, handle_cast/2, handle_info/2, terminate/2, format_status/1]).
-export_type([key/0, told/0]).

-include("imem.hrl").
-include_lib("kernel/include/logger.hrl").

-type key() :: term().
-type told() :: {imem_told, non_neg_integer(), [{key() | {now, imem_lines:element(), non_neg_integer()}, binary()}]}.

-define(MOST_PIPED, 64).    % lines in the pipe: some groups, so that the program never waits for the next
-define(PAUSE, 1000).       % milliseconds before a program that ended by itself is started again
-define(SHORT_PAUSE, 100).  % the same of one that was killed as it opened its image
-define(TICK, 1000).

-record(state, {
    number :: non_neg_integer(),
    config :: imem_config:config(),
    port :: port() | undefined,
    pipe :: imem_pipe:pipe() | undefined,
    phase = opening :: opening | open | ended,
    askers = imem_askers:new() :: imem_askers:askers(),
    refused = none :: binary() | none
}).

-spec start_link(non_neg_integer(), imem_config:config()) -> gen_server:start_ret().
start_link(K, Config) -> gen_server:start_link({local, name(K)}, ?MODULE, {K, Config}, []).

-spec name(non_neg_integer()) -> atom().
name(K) -> list_to_atom("imem_module_" ++ integer_to_list(K)).

%% Where a module is found, whatever process it is now; of one on several nodes at each turn another one.
-spec at(non_neg_integer(), non_neg_integer(), imem_config:config()) -> {atom(), node()}.
at(K, Turn, Config) ->
    Nodes = imem_config:nodes_of(K, Config),
    {name(K), lists:nth(1 + Turn rem length(Nodes), Nodes)}.

-spec ask(non_neg_integer(), non_neg_integer(), [{key(), imem_lines:asked()}], imem_config:config()) -> ok.
ask(K, Turn, Lines, Config) -> send(ask, K, Turn, Lines, Config).

send(How, K, Turn, Lines, #{send := {Module, Function}} = Config) ->
    _ = Module:Function(at(K, Turn, Config), {'$gen_cast', {How, self(), Lines}}),
    ok.

%% Asks lines and waits for their answers. For processes that ask nothing else.
-spec asked(non_neg_integer(), [iodata()], timeout(), imem_config:config()) -> {ok, [binary()]} | {error, term()}.
asked(K, Lines, Within, Config) -> answered(ask, K, Lines, Within, Config).

%% The same of lines that change nothing. Of a module on several nodes this one's image is looked at.
-spec looked(non_neg_integer(), [iodata()], timeout(), imem_config:config()) -> {ok, [binary()]} | {error, term()}.
looked(K, Lines, Within, Config) -> answered(look, K, Lines, Within, Config).

answered(How, K, Lines, Within, Config) ->
    Monitor = monitor(process, at(K, 0, Config)),
    Keys = [{Monitor, At} || At <- lists:seq(1, length(Lines))],
    send(How, K, 0, lists:zip(Keys, [imem_lines:asked(Line) || Line <- Lines]), Config),
    Timer = erlang:send_after(Within, self(), {late, Monitor}),
    Answers = answers(Keys, #{}, Monitor),
    _ = erlang:cancel_timer(Timer),
    true = demonitor(Monitor, [flush]),
    Answers.

%% Of what was asked before, and wasn't waited for, answers may still come.
answers(Keys, Told, _) when map_size(Told) =:= length(Keys) -> {ok, [map_get(Key, Told) || Key <- Keys]};
answers(Keys, Told, Monitor) ->
    receive
        {imem_told, _, More} -> answers(Keys, maps:merge(Told, maps:with(Keys, maps:from_list(More))), Monitor);
        {'DOWN', Monitor, process, _, Why} -> {error, Why};
        {late, Monitor} -> {error, late}
    end.

-spec init({non_neg_integer(), imem_config:config()}) -> {ok, #state{}, {continue, open}}.
init({K, Config}) ->
    process_flag(trap_exit, true),
    {ok, #state{number = K, config = Config}, {continue, open}}.

%% Asks what has to come to the same at each start, before anybody else is heard.
-spec handle_continue(open, #state{}) -> {noreply, #state{}}.
handle_continue(open, S = #state{number = K, config = #{imem := Imem, modules := Modules} = Config}) ->
    #{K := #{image := Image, backups := Backups, options := Options, env := Env}} = Modules,
    Copies = case Backups of none -> []; _ -> ["--backups", Backups] end,
    Pipe = imem_pipe:open(Imem, ["serve", Image, "--watch", "--statuses", "--wait", "5"] ++ Copies ++ Options, Env),
    imem_counts:add({starts, K}),
    _ = erlang:send_after(?TICK, self(), tick),
    {noreply, say(checks(K, Config), S#state{port = imem_pipe:port(Pipe), pipe = Pipe})}.

-spec handle_call(term(), gen_server:from(), #state{}) -> {reply, unknown, #state{}}.
handle_call(_, _, S) -> {reply, unknown, S}.

-spec handle_cast(term(), #state{}) -> {noreply, #state{}}.
handle_cast({How, From, Lines}, S = #state{number = K, askers = Askers}) when How =:= ask; How =:= look ->
    {noreply, fill(S#state{askers = imem_askers:add(K, From, Lines, Askers)})};
handle_cast(_, S) -> {noreply, S}.

-spec handle_info(term(), #state{}) -> {noreply, #state{}} | {stop, term(), #state{}}.
handle_info({Port, {data, Data}}, S = #state{port = Port, pipe = Before}) ->
    {Lines, Pipe} = imem_pipe:heard(Data, Before),
    try lists:foldl(fun hear/2, {S#state{pipe = Pipe}, #{}, 0}, Lines) of
        {After, Told, Commands} ->
            imem_counts:add({groups, S#state.number}, min(1, Commands)),
            tell(S#state.number, Told, S#state.config),
            {noreply, fill(After)}
    catch throw:{wrong, Why} -> over(Why, S)
    end;
handle_info({Port, {exit_status, Status}}, S = #state{port = Port}) -> ended(Status, S);
handle_info({'EXIT', Port, Reason}, S = #state{port = Port, phase = Phase}) when Phase =/= ended -> ended(Reason, S);
handle_info({'DOWN', _, process, From, _}, S = #state{askers = Askers}) ->
    {noreply, S#state{askers = imem_askers:forget(From, Askers)}};
handle_info(pipe_has_room, S = #state{pipe = Pipe}) -> {noreply, fill(S#state{pipe = imem_pipe:wrote(Pipe)})};
handle_info(tick, S = #state{number = K, config = #{answers_within := Within}, pipe = Pipe}) ->
    _ = erlang:send_after(?TICK, self(), tick),
    {noreply, S#state{pipe = imem_pipe:look_after(K, Within, Pipe)}};
handle_info({ended, Why}, S) -> {stop, Why, S};
handle_info(_, S) -> {noreply, S}.

-spec terminate(term(), #state{}) -> ok.
terminate(_, #state{pipe = Pipe, phase = Phase}) when Pipe =/= undefined, Phase =/= ended -> imem_pipe:close(Pipe);
terminate(_, _) -> ok.

%% What logs have of it.
-spec format_status(gen_server:format_status()) -> gen_server:format_status().
format_status(Status) ->
    maps:map(fun
        (state, #state{number = K, phase = Phase, askers = Askers}) ->
            (imem_askers:sizes(Askers))#{module => K, phase => Phase};
        (_, Other) -> Other
    end, Status).

%% ---- To the program

%% Fills the pipe from those who ask, a line of each in turn.
fill(S = #state{phase = open, pipe = Pipe, askers = Askers}) ->
    case imem_pipe:has_room(Pipe) of
        true ->
            {Lines, Left} = imem_askers:take(max(0, ?MOST_PIPED - imem_pipe:piped(Pipe)), Askers),
            say(Lines, S#state{askers = Left});
        false -> S
    end;
fill(S) -> S.

say(Lines, S = #state{pipe = Pipe}) ->
    S#state{pipe = imem_pipe:say([{Line, Line#query.asked#asked.text} || Line <- Lines], Pipe)}.

%% ---- From the program

%% Hears a line: the program's last one, an answer that comes later, or the answer to the oldest line in the pipe.
hear(<<"refused ", Refusal/binary>>, {S, Told, Commands}) -> {S#state{refused = Refusal}, Told, Commands};
hear(Answer, {S = #state{askers = Askers}, Told, Commands}) ->
    case imem_askers:later(Answer, {Askers, Told}) of
        {Others, More} -> {S#state{askers = Others}, More, Commands};
        in_turn -> heard(imem_pipe:answered(S#state.pipe), Answer, S, Told, Commands)
    end.

heard(empty, Answer, _, _, _) -> throw({wrong, {unasked, Answer}});
heard({#query{from = check, key = Wanted}, Pipe}, Answer, S = #state{number = K, config = Config}, Told, Commands) ->
    is_as_wanted(Wanted, Answer, Config) orelse throw({wrong, {wrong_image, K, Answer}}),
    {opened(imem_pipe:piped(Pipe), S#state{pipe = Pipe}), Told, Commands};
heard({#query{asked = Asked} = Line, Pipe}, Answer, S = #state{askers = Askers}, Told, Commands) ->
    {After, More} = imem_askers:answered(Line, Answer, {Askers, Told}),
    {S#state{pipe = Pipe, askers = After}, More, Commands + is_command(Asked)}.

is_command(#asked{kind = Kind}) when Kind =:= request; Kind =:= confirm -> 1;
is_command(_) -> 0.

%% Tells each who asked what it is told, the last first.
-spec tell(non_neg_integer(), imem_askers:told(), imem_config:config()) -> ok.
tell(K, Told, #{send := {Module, Function}}) ->
    maps:foreach(fun(From, List) -> Module:Function(From, {imem_told, K, lists:reverse(List)}) end, Told).

%% ---- Opening

opened(0, S = #state{phase = opening, number = K}) ->
    ?LOG_NOTICE(#{what => "a module is open", module => K}, ?DOMAIN),
    S#state{phase = open};
opened(_, S) -> S.

%% What is asked at each start, before anybody else is heard.
-spec checks(non_neg_integer(), imem_config:config()) -> [#query{}].
checks(K, Config) ->
    Checks = [{"about", about} | imem_program:setup(K, Config)],
    [#query{from = check, key = Wanted, asked = imem_lines:asked(Line)} || {Line, Wanted} <- Checks].

%% Whether it has the answer that there has to be.
-spec is_as_wanted(about | binary(), binary(), imem_config:config()) -> boolean().
is_as_wanted(about, Answer, Config) -> is_enough(binary:split(Answer, <<" ">>, [global]), Config);
is_as_wanted(Wanted, Answer, _) -> Wanted =:= Answer.

%% Whether the image has all of the cluster's elements.
is_enough([<<"about">> | _], #{cluster := none}) -> true;
is_enough([<<"about">> | Words], #{cluster := #{elements := Ours}}) ->
    [<<"elements">>, Elements | _] = lists:dropwhile(fun(Word) -> Word =/= <<"elements">> end, Words),
    binary_to_integer(Elements) > lists:max([0 | [E || {E, _} <- Ours]]);
is_enough(_, _) -> false.

%% ---- The end

%% By status 5 the image is refused for good, and by 2 the command line is bad: starting again is of no use. A program
%% that was killed is started again at once, or nearly so if it was opening the image. One that ended by itself is
%% waited out: the image is in use (4), or its disk failed.
ended(Status, S = #state{refused = Refused}) when Status =:= 2; Status =:= 5 ->
    over({refused, Status, Refused}, S#state{phase = ended});
ended(Status, S = #state{number = K, refused = Refused, phase = Phase}) ->
    case imem_pipe:ended(K, Status, Refused) of
        {killed, Why} when Phase =:= open -> {stop, Why, S#state{phase = ended}};
        {How, Why} ->
            _ = erlang:send_after(case How of killed -> ?SHORT_PAUSE; by_itself -> ?PAUSE end, self(), {ended, Why}),
            {noreply, S#state{phase = ended}}
    end.

over(Why, S = #state{number = K, config = Config}) -> {stop, imem_server:is_over(K, Why, Config), S}.
