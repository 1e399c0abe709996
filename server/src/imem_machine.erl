%% A module on several nodes as a state machine of Ra: each member gets the same lines, in the order of one log.
%%
%% It keeps no memory of its own. What is committed goes to this node's replica (imem_replica), a process that has an
%% image: the same lines in the same order give the same memory and the same answers, so the images of all members mean
%% one memory. `base` is the image of a snapshot, until a command comes behind it.
%%
%% Each node numbers its commands, and they act in the order of their numbers, each once: one that is missing stops
%% those behind it until it is sent again, and one that comes twice is passed over.
-module(imem_machine).
-ifdef(RA).                 % A server whose modules are on one node each is compiled, and runs, without it.
-behaviour(ra_machine).
-endif.
-export([init/1, apply/3, state_enter/2, init_aux/1, handle_aux/6]).
-export_type([command/0, start/0, origins/0, base/0]).

%% A start of a node's replica: a later one is greater.
-type start() :: {Time :: integer(), Random :: pos_integer()}.
-type numbered() :: {node(), start(), pos_integer()}.
%% The first command of each start names the sizes of the images. The log's first one decides.
-type command() :: {sizes, numbered(), [string()]} | {ask, numbered(), [binary()]}.
%% The last command of each node.
-type origins() :: #{node() => {start(), pos_integer()}}.
-type base() :: none | {ra:index(), Packed :: binary()}.

-type state() :: #{
    replica := atom(),
    sizes := none | [string()],
    origins := origins(),
    base := base()
}.

-spec init(map()) -> state().
init(#{replica := Replica}) -> #{replica => Replica, sizes => none, origins => #{}, base => none}.

-spec apply(ra_machine:command_meta_data(), command() | term(), state()) -> {state(), ok}.
apply(#{index := Index}, {Kind, {Node, Start, N} = Numbered, What}, S = #{origins := Origins})
        when Kind =:= sizes; Kind =:= ask ->
    restored(S),
    case is_next(Start, N, maps:get(Node, Origins, none)) of
        true ->
            After = S#{origins := Origins#{Node => {Start, N}}, base := none},
            {applied(Kind, Index, Numbered, What, After), ok};
        false -> {S, ok}
    end;
apply(_, _, S) -> {S, ok}.      % Ra's own, as that a node is there.

is_next(_, 1, none) -> true;
is_next(Start, N, {Start, Before}) -> N =:= Before + 1;
is_next(Start, 1, {Before, _}) -> Start > Before;
is_next(_, _, _) -> false.

applied(sizes, Index, Numbered, Sizes, S = #{sizes := none}) ->
    tell(S, {begun, self(), Sizes}),
    applied(sizes, Index, Numbered, Sizes, S#{sizes := Sizes});
applied(sizes, Index, Numbered, _, S) -> applied(ask, Index, Numbered, [], S);
applied(ask, Index, Numbered, Lines, S = #{origins := Origins}) ->
    tell(S, {lines, self(), Index, Numbered, Lines, Origins}),
    S.

%% A member begins with the image of its snapshot, or with none. It has no effects: what is told is told to this node.
-spec state_enter(ra_server:ra_state() | eol, state()) -> [].
state_enter(recover, S) ->
    tell(S, {begin_with, self(), maps:with([sizes, origins, base], S)}),
    [];
state_enter(Kind, S) ->
    restored(S),
    tell(S, {is, self(), Kind}),
    [].

restored(#{base := none}) -> ok;
restored(#{base := {Index, _}} = S) -> tell(S, {restored, self(), Index}).

tell(#{replica := Replica}, What) -> gen_server:cast(Replica, What).

-spec init_aux(term()) -> none.
init_aux(_) -> none.

%% What this member's image is behind the line with this index: Ra may drop the log before it. Its behaviour names fewer
%% effects here than it takes, so there is no specification.
handle_aux(_, cast, {snapshot, {Index, _} = Base, Origins}, Aux, Log, S) ->
    {no_reply, Aux, Log, [{release_cursor, Index, S#{base := Base, origins := Origins}}]};
handle_aux(_, _, _, Aux, Log, _) -> {no_reply, Aux, Log}.
