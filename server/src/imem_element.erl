%% An element: a process that asks modules for what its program wants, and has many requests under way.
%%
%% It keeps no file: the windows of the modules are its log. It confirms a round once every module has answered all of
%% it. So where one module was told that a round is done it is done everywhere, and an element that starts goes on with
%% the first round that no module was told of; what it asks of it again is answered as before. So messages may be lost,
%% come twice or late, and an element may run twice at once: who is behind is told `Forgotten`, and starts again.
%%
%% A line that isn't answered is asked again after twice the time that its module takes, and then ever more seldom; one
%% that was told to wait as seldom as the configuration says. Of a module on several nodes the next member is asked where
%% one ends, or says nothing for a while.
-module(imem_element).
-behaviour(gen_statem).
-export([start_link/2, init/1, callback_mode/0, handle_event/4]).
-export_type([report/0]).

-include_lib("kernel/include/logger.hrl").
-include("imem.hrl").

%% Since when it was at work, in milliseconds of the clock, and how long modules were away, by what was killed there.
-type report() :: {Since :: integer(), [{program | node, Milliseconds :: non_neg_integer()}]}.

-type module_number() :: non_neg_integer().
%% What is asked of a module: a request by its number, or a line of the element itself.
-type key() :: {module_number(), pos_integer() | window | {confirm, pos_integer()}}.
-type next() :: #{module_number() => pos_integer()}.
%% A round: the next numbers before and behind it, its reads and its writes.
-type numbered() :: {next(), next(), [numbered_request()], [numbered_request()]}.
-type numbered_request() :: {key(), atom(), non_neg_integer()}.

%% A line that isn't answered: when it was asked, how often, and after how long it is asked again.
-record(line, {
    asked :: imem_lines:asked(),
    at = 0 :: integer(),
    times = 0 :: non_neg_integer(),
    pause = 0 :: non_neg_integer()
}).

%% windows: all modules are asked for theirs; round: one is done; ending: the last confirmations are under way.
-type state() :: windows | round | ending.

-record(data, {
    number :: imem_lines:element(),
    config :: imem_config:config(),
    lines = #{} :: #{key() => #line{}},
    answers = #{} :: #{key() => term()},
    round :: numbered() | undefined,
    rounds = [] :: [numbered()],                        % behind this one
    writes = [] :: [numbered_request()],                % of this round, that aren't asked yet
    reads = [] :: [key()],                              % beside them
    before = none :: none | non_neg_integer(),          % the value of the write before them
    modules = #{} :: #{reference() => module_number()}, % those that are there
    times = #{} :: #{module_number() => non_neg_integer()}, % how long each takes, smoothed, in milliseconds
    turns = #{} :: #{module_number() => non_neg_integer()}, % which member of each is asked
    heard = #{} :: #{module_number() => integer()},     % when each last said something, or was turned to
    away = #{} :: #{module_number() => {program | node, Since :: integer()}},
    returns = [] :: [{program | node, non_neg_integer()}],
    since = 0 :: integer(),
    behind = 0 :: non_neg_integer()                     % how often windows were read anew, as one was behind another
}).

-define(FIRST_TIME, 500).
-define(LEAST_PAUSE, 50).
-define(MOST_PAUSE, 10000).
-define(MOST_BEHIND, 100).
-define(SILENCE, 2000).     % milliseconds: who says nothing for so long is away, if others can be asked

-spec start_link(imem_lines:element(), imem_config:config()) -> gen_statem:start_ret().
start_link(E, Config) -> gen_statem:start_link(?MODULE, {E, Config}, []).

-spec callback_mode() -> handle_event_function.
callback_mode() -> handle_event_function.

-spec init({imem_lines:element(), imem_config:config()}) -> {ok, state(), #data{}, gen_statem:action()}.
init({E, Config}) ->
    D = #data{number = E, config = Config, since = erlang:system_time(millisecond)},
    {ok, windows, D, {next_event, internal, start}}.

modules(#data{config = #{modules := Modules}}) -> maps:keys(Modules).

-spec handle_event(gen_statem:event_type(), term(), state(), #data{}) -> gen_statem:event_handler_result(state()).
handle_event(internal, start, windows, D) -> began(lists:foldl(fun watch/2, D, modules(D)));
handle_event({timeout, begin_again}, _, windows, D) -> began(D);
handle_event({timeout, {look, K}}, _, _, D) -> {keep_state, ask_all(K, watch(K, D))};
handle_event({timeout, {repeat, Key}}, _, _, D = #data{lines = Lines}) when is_map_key(Key, Lines) ->
    {After, Actions} = asked(Key, listened(Key, D)),
    {keep_state, After, Actions};
handle_event(info, {imem_told, K, Answers}, State, D) ->
    try lists:foldl(fun({Key, Answer}, Sum) -> told(K, Key, Answer, Sum) end, {returned(K, D), []}, Answers) of
        {After, Actions} -> went_on(State, After, Actions)
    catch
        throw:overtaken -> began(D#data{lines = #{}, answers = #{}});
        throw:{over, Why} -> over(Why, D)
    end;
handle_event(info, {'DOWN', Monitor, process, _, Why}, _, D = #data{modules = Modules})
        when is_map_key(Monitor, Modules) ->
    {K, Others} = maps:take(Monitor, Modules),
    gone(K, Why, D#data{modules = Others});
handle_event(_, _, _, _) -> keep_state_and_data.

%% For good: the supervisor lets it be.
over(Why, D = #data{number = E}) ->
    ?LOG_ERROR(#{what => "an element can't go on", element => E, why => Why}, ?DOMAIN),
    {stop, {shutdown, Why}, D}.

%% ---- Rounds

began(D = #data{number = E}) ->
    Ask = fun(K, Sum) -> ask({K, window}, ["window ", text(E)], Sum) end,
    {After, Actions} = lists:foldl(Ask, {D#data{lines = #{}, answers = #{}}, []}, modules(D)),
    {next_state, windows, After, Actions}.

%% What can be done now that something was answered.
went_on(windows, D = #data{lines = Lines, answers = Answers}, Actions) when map_size(Lines) =:= 0 ->
    {Rounds, End} = numbered(D),
    Windows = maps:from_list([{K, Window} || {{K, window}, Window} <- maps:to_list(Answers)]),
    go_on(Rounds, End, Windows, D#data{answers = #{}}, Actions);
went_on(round, D, Actions) -> in_round(write({D, Actions}));
went_on(ending, D = #data{lines = Lines}, _) when map_size(Lines) =:= 0 ->
    imem_program:ended(D#data.number, {D#data.since, D#data.returns}, D#data.config),
    {stop, normal, D};
went_on(_, D, Actions) -> {keep_state, D, Actions}.

%% The rounds with their numbers: before each round and behind it the next number at each module, and of each of its
%% requests the module and the number.
numbered(D = #data{number = E, config = Config}) ->
    Number = fun({K, Verb, Cell}, Next) -> N = map_get(K, Next), {{{K, N}, Verb, Cell}, Next#{K := N + 1}} end,
    Round = fun({Reads, Writes}, Before) ->
        {Numbered, Between} = lists:mapfoldl(Number, Before, Reads),
        {Others, Behind} = lists:mapfoldl(Number, Between, Writes),
        {{Before, Behind, Numbered, Others}, Behind}
    end,
    First = maps:from_list([{K, 1} || K <- modules(D)]),
    lists:mapfoldl(Round, First, imem_program:rounds(E, Config)).

%% From the first round that no module was told is done, to the end.
go_on(Rounds, End, Windows, D, Actions) ->
    IsTold = fun({K, {Base, _}}, Before) -> Base > map_get(K, Before) end,
    IsDone = fun({Before, _, _, _}) -> lists:any(fun(It) -> IsTold(It, Before) end, maps:to_list(Windows)) end,
    Left = lists:dropwhile(IsDone, Rounds),
    Begin = case Left of [{Before, _, _, _} | _] -> Before; [] -> End end,
    case [K || {K, {_, Next}} <- maps:to_list(Windows), Next < map_get(K, Begin)] of
        [] -> rounds(Left, confirm(maps:map(fun(_, {Base, _}) -> Base end, Windows), Begin, {D, Actions}));
        Behind -> behind(Behind, D)
    end.

%% A module that has seen less than what is confirmed elsewhere told its window before another of this element went on.
%% Where that stays so, an older copy of its image was put back.
behind(Modules, D = #data{behind = Many, number = E}) when Many > ?MOST_BEHIND -> over({older_image_at, Modules, E}, D);
behind(_, D = #data{behind = Many}) ->
    {next_state, windows, D#data{behind = Many + 1}, {{timeout, begin_again}, 50, again}}.

rounds([], {D, Actions}) ->
    case map_size(D#data.lines) of
        0 -> went_on(ending, D, Actions);
        _ -> {next_state, ending, D, Actions}
    end;
rounds([Round = {_, _, Reads, Writes} | Rounds], {D, Actions}) ->
    Keys = [Key || {Key, _, _} <- Reads],
    Begun = D#data{round = Round, rounds = Rounds, writes = Writes, reads = Keys, before = none},
    Ask = fun({Key, Verb, Cell}, Sum) -> request(Key, Verb, Cell, "", Sum) end,
    in_round(write(lists:foldl(Ask, {Begun, Actions}, Reads))).

%% A round is over once all of it is answered. It is confirmed then, along with the next round's requests.
in_round({D = #data{writes = Writes, lines = Lines, round = {Before, Behind, _, _}, rounds = Rounds}, Actions}) ->
    case Writes =:= [] andalso [N || {_, N} <- maps:keys(Lines), is_integer(N)] =:= [] of
        true -> rounds(Rounds, confirm(Before, Behind, {D#data{answers = #{}, round = undefined}, Actions}));
        false -> {next_state, round, D, Actions}
    end.

%% A write waits for the read beside it, and is asked then.
write({#data{writes = [_ | _], reads = [Read | _], answers = Answers}, _} = Sum) when not is_map_key(Read, Answers) ->
    Sum;
write({D = #data{writes = [{Key, Verb, Cell} | Writes], reads = Reads, answers = Answers, before = Before}, Actions}) ->
    {Found, Others} = case Reads of [] -> {none, []}; [Read | Rest] -> {map_get(Read, Answers), Rest} end,
    Value = imem_program:written(D#data.config, Found, Before),
    After = D#data{writes = Writes, reads = Others, before = Value},
    write(request(Key, Verb, Cell, [" ", text(Value)], {After, Actions}));
write(Sum) -> Sum.

request(Key = {_, N}, Verb, Cell, Rest, Sum = {#data{number = E}, _}) ->
    ask(Key, [text(E), $., text(N), " ", atom_to_list(Verb), " ", text(Cell), Rest], Sum).

%% Told along with the requests of the next round, and not waited for: a later confirmation stands for those before it.
confirm(Before, Behind, Sum) ->
    maps:fold(fun(K, Upto, {D = #data{number = E, lines = Lines}, Actions}) ->
        Left = maps:filter(fun({At, {confirm, _}}, _) -> At =/= K; (_, _) -> true end, Lines),
        ask({K, {confirm, Upto}}, ["confirm ", text(E), " ", text(Upto)], {D#data{lines = Left}, Actions})
    end, Sum, maps:filter(fun(K, Upto) -> Upto > map_get(K, Before) end, Behind)).

text(Number) -> integer_to_list(Number).

%% ---- Asking until it is answered

ask(Key, Line, {D = #data{lines = Lines}, Actions}) ->
    {After, More} = asked(Key, D#data{lines = Lines#{Key => #line{asked = imem_lines:asked(Line)}}}),
    {After, More ++ Actions}.

%% Asks a line, and again after a while. A module that is away is asked once it is there.
asked(Key = {K, _}, D = #data{config = Config, lines = Lines, modules = Modules}) ->
    #{Key := Line = #line{asked = Asked, times = Times, pause = Before}} = Lines,
    _ = lists:member(K, maps:values(Modules)) andalso imem_module:ask(K, turn(K, D), [{Key, Asked}], Config),
    Pause = case Before of 0 -> pause(K, D); _ -> min(2 * Before, max(Before, ?MOST_PAUSE)) end,
    After = Line#line{at = now_ms(), times = Times + 1, pause = Pause},
    {D#data{lines = Lines#{Key := After}}, [repeated(Key, Pause)]}.

repeated(Key, Pause) -> {{timeout, {repeat, Key}}, Pause, repeat}.

pause(K, #data{times = Times}) -> max(?LEAST_PAUSE, min(?MOST_PAUSE, 2 * maps:get(K, Times, ?FIRST_TIME))).

%% In the order of their numbers, the element's own lines first.
ask_all(K, D = #data{config = Config, lines = Lines}) ->
    Own = [{Key, Line#line.asked} || {{At, What} = Key, Line} <- maps:to_list(Lines), At =:= K, not is_integer(What)],
    Requests = [{Key, Line#line.asked} || {{At, N} = Key, Line} <- maps:to_list(Lines), At =:= K, is_integer(N)],
    Own ++ Requests =:= [] orelse imem_module:ask(K, turn(K, D), Own ++ lists:sort(Requests), Config),
    D.

watch(K, D = #data{config = Config, modules = Modules, heard = Heard}) ->
    Monitor = monitor(process, imem_module:at(K, turn(K, D), Config)),
    D#data{modules = Modules#{Monitor => K}, heard = Heard#{K => now_ms()}}.

%% Elements begin with different members.
turn(K, #data{number = E, turns = Turns}) -> maps:get(K, Turns, E).

turned(K, D = #data{config = Config, turns = Turns}) ->
    case imem_config:is_replicated(K, Config) of
        true -> D#data{turns = Turns#{K => turn(K, D) + 1}};
        false -> D
    end.

%% A member that is there and says nothing is parted from the others, or halted.
listened({K, _} = Key, D = #data{config = Config, lines = Lines, heard = Heard, modules = Modules}) ->
    #{Key := #line{pause = Pause}} = Lines,
    Silent = now_ms() - maps:get(K, Heard, 0),
    case imem_config:is_replicated(K, Config) andalso Silent > max(?SILENCE, Pause) of
        true ->
            Watched = [Monitor || {Monitor, At} <- maps:to_list(Modules), At =:= K],
            _ = [demonitor(Monitor, [flush]) || Monitor <- Watched],
            ask_all(K, watch(K, turned(K, D#data{modules = maps:without(Watched, Modules)})));
        false -> D
    end.

%% A module that is gone is looked for until it answers, more seldom the longer it is away.
gone(K, Why, D = #data{away = Away}) ->
    Now = now_ms(),
    By = case Why of noconnection -> node; _ -> program end,
    {_, Since} = Gone = maps:get(K, Away, {By, Now}),
    Pause = max(20, min(1000, (Now - Since) div 8)),
    {keep_state, turned(K, D#data{away = Away#{K => Gone}}), {{timeout, {look, K}}, Pause, look}}.

returned(K, D0 = #data{away = Away, returns = Returns, heard = Heard}) ->
    D = D0#data{heard = Heard#{K => now_ms()}},
    case maps:take(K, Away) of
        {{By, Since}, Others} -> D#data{away = Others, returns = [{By, now_ms() - Since} | Returns]};
        error -> D
    end.

%% ---- Answers

told(K, {now, _, N}, Answer, Sum) -> told(K, {K, N}, Answer, Sum);
told(_, Key, Answer, {D = #data{lines = Lines}, Actions}) when is_map_key(Key, Lines) ->
    [_ | Words] = binary:split(Answer, <<" ">>, [global]),
    answered(Key, Words, timed(Key, D), Actions);
told(_, _, _, Sum) -> Sum.      % It was answered already.

%% A time counts only of a line that was asked once: else nobody knows which time was answered.
timed(Key = {K, _}, D = #data{lines = Lines, times = Times}) ->
    case Lines of
        #{Key := #line{times = 1, at = At, pause = Pause}} when Pause =< ?MOST_PAUSE ->
            Time = now_ms() - At,
            D#data{times = Times#{K => (7 * maps:get(K, Times, Time) + Time) div 8}};
        _ -> D
    end.

answered(Key, [<<"now">> | Words], D, Actions) -> answered(Key, Words, D, Actions);
answered(Key, [<<"waiting">>], D = #data{lines = Lines, config = #{repeats_waiting := Pause}}, Actions) ->
    #{Key := Line} = Lines,
    {D#data{lines = Lines#{Key := Line#line{times = 2, pause = Pause}}}, [repeated(Key, Pause) | Actions]};
answered(Key, [<<"value">>, Value], D, Actions) -> answer(Key, binary_to_integer(Value), D, Actions);
answered(Key, [<<"stored">>], D, Actions) -> answer(Key, stored, D, Actions);
answered(Key, [<<"window">>, Base, Next], D, Actions) ->
    answer(Key, {binary_to_integer(Base), binary_to_integer(Next)}, D, Actions);
answered(Key, [<<"confirmed">>, _], D, Actions) -> answer(Key, confirmed, D, Actions);
answered(_, [<<"refused">>, <<"2">>, _], _, _) -> throw(overtaken);
answered(_, [<<"refused">>, Number, _], D, Actions) when Number =:= <<"1">>; Number =:= <<"3">> ->
    {D, Actions};                   % What comes before it was lost: both are asked again.
answered(Key, Words, #data{lines = Lines}, _) ->
    #{Key := #line{asked = #asked{text = Text}}} = Lines,
    throw({over, {unexpected, Key, Text, Words}}).

answer(Key, What, D = #data{lines = Lines, answers = Answers}, Actions) ->
    After = D#data{lines = maps:remove(Key, Lines), answers = Answers#{Key => What}},
    {After, [{{timeout, {repeat, Key}}, cancel} | Actions]}.

now_ms() -> erlang:monotonic_time(millisecond).
