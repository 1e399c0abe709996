%% A client of a socket: hears lines, looks at each, asks its module, and says the answers in the order of the lines.
%%
%% It holds as many lines as its listener allows, and hears no more until some are answered; nor while its client
%% doesn't read, nor faster than so many bytes a second. A client that doesn't read for too long is let go. If the
%% module is away, what isn't answered is asked again once it is back, and what waits is looked at: its client doesn't
%% notice. Of a module on several nodes it asks one member, and another one if that ends, or answers nothing for a while.
-module(imem_client).
-behaviour(gen_server).
-export([start_link/2, go/2]).
-export([init/1, handle_call/3, handle_cast/2, handle_info/2, handle_continue/2, terminate/2]).
-export_type([socket/0]).

-include("imem.hrl").
-include_lib("kernel/include/logger.hrl").

-type socket() :: {gen_tcp, gen_tcp:socket()} | {ssl, ssl:sslsocket()}.

-define(HANDSHAKE, 5000).
-define(SILENCE, 2000).         % milliseconds in which a member has to answer something; twice as many each time
-define(MOST_SILENCE, 16000).

%% A line that was heard: asked, with its answer to come, or answered here already.
-type line() :: {Number :: pos_integer(), imem_lines:asked() | {told, iodata()}}.

-record(state, {
    listener :: imem_config:listener(),
    config :: imem_config:config(),
    socket :: socket() | undefined,
    rights :: imem_lines:rights() | undefined,
    heard = 0 :: non_neg_integer(),                 % lines
    text = <<>> :: binary(),                        % what isn't a whole line yet, or has no room yet
    passes_over = false :: boolean(),               % the rest of a line that is too long
    is_hearing = false :: boolean(),                % the socket was asked for more, or will be in a moment
    ends = false :: boolean(),                      % no line follows
    lines = queue:new() :: queue:queue(line()),     % that aren't answered to the client
    waits = #{} :: #{{imem_lines:element(), non_neg_integer()} => []},
    monitor :: reference() | undefined,             % of the module, if it is there
    away = 0 :: non_neg_integer(),                  % how often it wasn't, since it was there
    turn = 0 :: non_neg_integer(),                  % which member is asked
    asked_at = 0 :: integer(),                      % when it was asked, or answered, last
    silence = ?SILENCE :: pos_integer(),
    room = 0 :: integer(),                          % bytes that may be heard until the next second
    second = 0 :: integer()
}).

-spec start_link(imem_config:listener(), imem_config:config()) -> gen_server:start_ret().
start_link(Listener, Config) -> gen_server:start_link(?MODULE, {Listener, Config}, []).

%% Gives a client its socket, which is its own by then.
-spec go(pid(), socket()) -> ok.
go(Pid, Socket) -> gen_server:cast(Pid, {go, Socket}).

-spec init({imem_config:listener(), imem_config:config()}) -> {ok, #state{}, timeout()}.
init({Listener, Config}) -> {ok, #state{listener = Listener, config = Config}, ?HANDSHAKE}.

-spec handle_call(term(), gen_server:from(), #state{}) -> {reply, unknown, #state{}}.
handle_call(_, _, S) -> {reply, unknown, S}.

-spec handle_cast(term(), #state{}) -> {noreply, #state{}, {continue, begin_with}} | {noreply, #state{}}.
handle_cast({go, Socket}, S = #state{socket = undefined}) ->
    {noreply, S#state{socket = Socket}, {continue, begin_with}};
handle_cast(_, S) -> {noreply, S}.

-spec handle_continue(begin_with, #state{}) -> {noreply, #state{}} | {stop, normal, #state{}}.
handle_continue(begin_with, S = #state{socket = Given, listener = Listener}) ->
    #{role := Role, elements := Elements, bytes := Bytes} = Listener,
    case shaken(Given) of
        {ok, Socket} ->
            imem_counts:add({clients, Role}),
            Rights = #{role => Role, elements => own(Elements, Socket)},
            Begun = S#state{socket = Socket, rights = Rights, room = Bytes, second = now_ms()},
            _ = is_replicated(S) andalso erlang:send_after(?SILENCE, self(), listen),
            {noreply, hearing(watching(Begun))};
        {error, Why} ->
            ?LOG_NOTICE(#{what => "a client isn't let in", why => Why}, ?DOMAIN),
            {stop, normal, S}
    end.

shaken({gen_tcp, Socket}) -> {ok, {gen_tcp, Socket}};
shaken({ssl, Socket}) ->
    case ssl:handshake(Socket, ?HANDSHAKE) of
        {ok, Shaken} -> {ok, {ssl, Shaken}};
        {error, Why} -> {error, Why}
    end.

%% The elements of whoever is at the other end. One that isn't named has none.
own({by_user, Users}, {gen_tcp, Socket}) -> maps:get(user_of(Socket), Users, []);
own({by_name, Names}, {ssl, Socket}) -> maps:get(name_of(Socket), Names, []);
own({_, _}, _) -> [];
own(Elements, _) -> Elements.

%% By SO_PEERCRED of Linux: a process, its user and its group.
user_of(Socket) ->
    case inet:getopts(Socket, [{raw, 1, 17, 12}]) of
        {ok, [{raw, 1, 17, <<_:32, User:32/native, _:32>>}]} -> User;
        _ -> none
    end.

name_of(Socket) ->
    case ssl:peercert(Socket) of
        {ok, Certificate} -> imem_listener:common_name(Certificate);
        {error, _} -> none
    end.

-spec handle_info(term(), #state{}) -> {noreply, #state{}} | {stop, term(), #state{}}.
handle_info({Tag, Raw, Data}, S = #state{socket = {_, Raw}}) when Tag =:= tcp; Tag =:= ssl ->
    came(budgeted(byte_size(Data), taken(S#state{text = <<(S#state.text)/binary, Data/binary>>, is_hearing = false})));
handle_info({Tag, Raw}, S = #state{socket = {_, Raw}}) when Tag =:= tcp_closed; Tag =:= ssl_closed ->
    came(taken(S#state{ends = true}));
handle_info({Tag, Raw, _}, S = #state{socket = {_, Raw}}) when Tag =:= tcp_error; Tag =:= ssl_error ->
    {stop, normal, S};
handle_info({imem_told, _, Answers}, S) ->
    {Told, After} = lists:foldl(fun told/2, {[], S#state{asked_at = now_ms(), silence = ?SILENCE}}, Answers),
    said(Told, After);
handle_info({'DOWN', Monitor, process, _, Why}, S = #state{monitor = Monitor}) ->
    away(Why, S#state{monitor = undefined});
handle_info(look_again, S = #state{monitor = undefined}) -> {noreply, watching(S)};
handle_info(listen, S) ->
    _ = erlang:send_after(?SILENCE, self(), listen),
    {noreply, listening(S)};
handle_info(go_on, S) -> {noreply, hearing(budgeted(0, S#state{is_hearing = false}))};
handle_info(timeout, S) -> {stop, normal, S};       % It was never given its socket.
handle_info(_, S) -> {noreply, S}.

-spec terminate(term(), #state{}) -> ok.
terminate(_, #state{socket = {Transport, Socket}}) ->
    _ = Transport:close(Socket),
    ok;
terminate(_, _) -> ok.

%% ---- Lines

%% Takes the whole lines of the text, as long as there is room for them.
taken(S = #state{lines = Lines, text = Text, listener = #{lines := Most}}) ->
    taken(queue:len(Lines), Most, Text, [], S).

taken(Held, Most, Text, Asked, S) when Held >= Most -> asking(Asked, S#state{text = Text});
taken(Held, Most, Text, Asked, S = #state{passes_over = PassesOver, heard = Heard}) ->
    case binary:split(Text, <<"\n">>) of
        [_, Rest] when PassesOver -> taken(Held, Most, Rest, Asked, S#state{passes_over = false});
        [Line, Rest] -> line(Line, Held, Most, Rest, Asked, S#state{heard = Heard + 1});
        [_] when PassesOver -> asking(Asked, S#state{text = <<>>});
        [Part] when byte_size(Part) > ?MOST_OF_A_LINE ->
            line(Part, Held, Most, <<>>, Asked, S#state{heard = Heard + 1, passes_over = true});
        [Part] -> asking(Asked, S#state{text = Part})
    end.

line(Text, Held, Most, Rest, Asked, S = #state{heard = Number, lines = Lines, rights = Rights}) ->
    case imem_lines:look(Text, Rights) of
        quit -> asking(Asked, S#state{text = <<>>, ends = true});
        {ask, It} ->
            Line = {Number, It},
            taken(Held + 1, Most, Rest, [Line | Asked], S#state{lines = queue:in(Line, Lines)});
        {error, Why} ->
            imem_counts:add({wrong_lines, maps:get(role, Rights)}),
            Told = {told, error_line(Number, Why)},
            taken(Held + 1, Most, Rest, Asked, S#state{lines = queue:in({Number, Told}, Lines)})
    end.

error_line(Number, Why) -> ["error ", integer_to_binary(Number), ": ", Why, $\n].

%% If the module is away they are asked once it is back.
asking([], S) -> S;
asking(_, S = #state{monitor = undefined}) -> S;
asking(Asked, S = #state{asked_at = Before, lines = Lines}) ->
    ask(lists:reverse(Asked), S),
    case queue:len(Lines) > length(Asked) of
        true -> S#state{asked_at = Before};
        false -> S#state{asked_at = now_ms()}
    end.

ask(Lines, #state{config = Config, turn = Turn, listener = #{module := K}}) ->
    imem_module:ask(K, Turn, Lines, Config).

%% ---- Answers

%% Adds what an answer lets be said, the last first.
told({{now, E, N}, Answer}, {Told, S = #state{waits = Waits}}) when is_map_key({E, N}, Waits) ->
    {[[Answer, $\n] | Told], S#state{waits = maps:remove({E, N}, Waits)}};
told({{now, _, _}, _}, Sum) -> Sum;      % It was told by the member that was asked before.
told({{again, E, N}, Answer}, {Told, S = #state{waits = Waits}}) when is_map_key({E, N}, Waits) ->
    [Who, Reply] = binary:split(Answer, <<" ">>),
    After = S#state{waits = maps:remove({E, N}, Waits)},
    case Reply of
        <<"waiting">> -> {Told, S};
        <<"refused ", _/binary>> -> {Told, After};      % It was confirmed by another.
        _ -> {[[Who, " now ", Reply, $\n] | Told], After}
    end;
told({{again, _, _}, _}, Sum) -> Sum;
told({Number, Answer}, {Told, S = #state{lines = Lines}}) ->
    case queue:peek(Lines) of
        {value, {Number, Asked}} ->
            After = waiting(Asked, Answer, S#state{lines = queue:drop(Lines)}),
            given({[[spelled(Number, Answer), $\n] | Told], After});
        _ -> {Told, S}      % It was asked twice, as the module was away.
    end.

%% The program counts the lines of all its clients; each hears of its own.
spelled(Number, <<"error ", Rest/binary>>) ->
    [_, Why] = binary:split(Rest, <<": ">>),
    ["error ", integer_to_binary(Number), ": ", Why];
spelled(_, Answer) -> Answer.

waiting(#asked{kind = request, element = E, number = N}, Answer, S = #state{waits = Waits}) ->
    case binary:longest_common_suffix([Answer, <<" waiting">>]) of
        8 -> S#state{waits = Waits#{{E, N} => []}};
        _ -> S#state{waits = maps:remove({E, N}, Waits)}
    end;
waiting(_, _, S) -> S.

%% Adds the answers that were given here to the lines that come next.
given({Told, S = #state{lines = Lines}}) ->
    case queue:peek(Lines) of
        {value, {_, {told, Text}}} -> given({[Text | Told], S#state{lines = queue:drop(Lines)}});
        _ -> {Told, S}
    end.

%% Says what there is, and hears on. Whoever asked for nothing more is through once all is answered.
came(S) ->
    {Told, After} = given({[], S}),
    said(Told, After).

said(Told, S = #state{socket = {Transport, Socket}, rights = #{role := Role}}) ->
    case Told =:= [] orelse Transport:send(Socket, lists:reverse(Told)) of
        Sent when Sent =:= true; Sent =:= ok -> went_on(S);
        {error, timeout} ->
            imem_counts:add({let_go, Role}),
            {stop, normal, S};
        {error, _} -> {stop, normal, S}
    end.

went_on(S = #state{text = Text, lines = Lines, listener = #{lines := Most}}) ->
    HasRoom = queue:len(Lines) < Most,
    case HasRoom andalso binary:match(Text, <<"\n">>) =/= nomatch of
        true -> came(taken(S));
        false when S#state.ends ->
            case queue:is_empty(Lines) of true -> {stop, normal, S}; false -> {noreply, S} end;
        false -> {noreply, hearing(S)}
    end.

%% Asks the socket for more, if there is room for a line, and bytes may be heard.
hearing(S = #state{is_hearing = true}) -> S;
hearing(S = #state{ends = true}) -> S;
hearing(S = #state{room = Room, socket = Socket, lines = Lines, listener = #{lines := Most, bytes := Bytes}}) ->
    case queue:len(Lines) < Most of
        false -> S;
        true when Room < 0 ->
            _ = erlang:send_after(max(1, -1000 * Room div Bytes), self(), go_on),
            S#state{is_hearing = true};
        true ->
            _ = more(Socket),
            S#state{is_hearing = true}
    end.

more({gen_tcp, Socket}) -> inet:setopts(Socket, [{active, once}]);
more({ssl, Socket}) -> ssl:setopts(Socket, [{active, once}]).

%% What was heard counts against the bytes of a second, which come back as time goes.
budgeted(Size, S = #state{room = Room, second = Second, listener = #{bytes := Bytes}}) ->
    Now = now_ms(),
    S#state{room = min(Bytes, Room + (Now - Second) * Bytes div 1000) - Size, second = Now}.

now_ms() -> erlang:monotonic_time(millisecond).

%% ---- The module

%% Asks all that isn't answered, in its order, once the module is there. A copy may have been made, or not.
watching(S = #state{listener = #{module := K}, config = Config, lines = Lines, waits = Waits, turn = Turn}) ->
    Monitor = monitor(process, imem_module:at(K, Turn, Config)),
    Again = [{{again, E, N}, again(E, N)} || {E, N} <- maps:keys(Waits)],
    Asked = [It || {_, #asked{}} = It <- queue:to_list(Lines)],
    Again ++ Asked =:= [] orelse ask(Again ++ Asked, S),
    S#state{monitor = Monitor, asked_at = now_ms()}.

again(E, N) -> (imem_lines:asked(["collect ", integer_to_binary(E), $., integer_to_binary(N)]))#asked{kind = again}.

%% A module that was refused for good is so for its clients.
-spec away(term(), #state{}) -> {noreply, #state{}} | {stop, normal, #state{}}.
away({shutdown, {over, Why}}, S) ->
    case {is_replicated(S), Why} of
        {true, _} -> came(unsure(looks_again(5, S)));
        {false, {refused, _, Refusal}} when is_binary(Refusal) -> refused(["refused ", Refusal], S);
        _ -> refused(error_text(S, "the module can't be opened"), S)
    end;
away(Why, S = #state{away = Away, listener = #{module := K}}) when Why =:= noproc; Why =:= noconnection ->
    case Away > 3 andalso Why =:= noproc andalso is_own(S) andalso imem_module_sup:is_over(K) of
        true -> refused(error_text(S, "the module can't be opened"), S);
        false -> came(looks_again(min(1000, 10 + 10 * Away), S#state{away = Away + 1}))
    end;
away(_, S) -> came(unsure(looks_again(5, S#state{away = 0}))).

is_own(S = #state{listener = #{module := K}, config = Config}) ->
    not is_replicated(S) andalso lists:member(K, imem_config:own(Config)).

is_replicated(#state{listener = #{module := K}, config = Config}) -> imem_config:is_replicated(K, Config).

%% Of a module on several nodes the next one is asked.
turned(S = #state{turn = Turn}) ->
    case is_replicated(S) of true -> S#state{turn = Turn + 1}; false -> S end.

%% A member that is there and answers nothing is parted from the others, or halted; but for a backup, which takes long.
listening(S = #state{lines = Lines, monitor = Monitor, asked_at = At, silence = Silence}) ->
    case queue:peek(Lines) of
        {value, {_, #asked{kind = Kind}}} when Kind =/= backup, Monitor =/= undefined ->
            case now_ms() - At > Silence of
                true ->
                    true = demonitor(Monitor, [flush]),
                    watching(turned(S#state{silence = min(2 * Silence, ?MOST_SILENCE)}));
                false -> S
            end;
        _ -> S
    end.

error_text(#state{heard = Heard}, Words) -> ["error ", integer_to_binary(Heard), ": ", Words].

looks_again(Pause, S) ->
    _ = erlang:send_after(Pause, self(), look_again),
    turned(S).

refused(Text, S = #state{socket = {Transport, Socket}}) ->
    _ = Transport:send(Socket, [Text, $\n]),
    {stop, normal, S}.

%% A backup that wasn't answered isn't asked for again: its file may be there.
unsure(S = #state{lines = Lines}) ->
    S#state{lines = queue:filtermap(fun
        ({Number, #asked{kind = backup, text = Text}}) ->
            {true, {Number, {told, [Text, " refused: the program ended before it was answered\n"]}}};
        (_) -> true
    end, Lines)}.
