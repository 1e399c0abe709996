%% Who asks a module: what each of them wants to ask, of each a line in turn, and who waits for a value that comes later.
-module(imem_askers).
-export([new/0, add/4, take/2, answered/3, later/2, forget/2, sizes/1, noted/3]).
-export_type([askers/0, told/0]).

-include("imem.hrl").

%% What isn't asked yet, and the keys of all that is under way.
-record(asker, {
    monitor :: reference(),
    queue = queue:new() :: queue:queue(#query{}),
    under_way = #{} :: #{imem_module:key() => []}
}).

-record(askers, {
    known = #{} :: #{pid() => #asker{}},
    turns = queue:new() :: queue:queue(pid()),      % who has lines in a queue, the next one first
    waiters = #{} :: #{{imem_lines:element(), non_neg_integer()} => pid()}
}).

-opaque askers() :: #askers{}.
%% What is told together to each who asked, the last first.
-type told() :: #{pid() => [{imem_module:key(), binary()}]}.

-spec new() -> askers().
new() -> #askers{}.

%% Adds lines of one who asks a module, but those that are under way already, and counts both.
-spec add(non_neg_integer(), pid(), [{imem_module:key(), imem_lines:asked()}], askers()) -> askers().
add(K, From, Lines, A = #askers{known = Known}) ->
    Asker = #asker{under_way = Before} = case Known of
        #{From := It} -> It;
        _ -> #asker{monitor = monitor(process, From)}
    end,
    {After, Repeated} = lists:foldl(fun({Key, Asked}, Sum) -> queued(From, Key, Asked, Sum) end, {Asker, 0}, Lines),
    IsNew = queue:is_empty(Asker#asker.queue) andalso not queue:is_empty(After#asker.queue),
    imem_counts:add({asked, K}, map_size(After#asker.under_way) - map_size(Before)),
    imem_counts:add({repeated, K}, Repeated),
    turned(From, IsNew, A#askers{known = Known#{From => After}}).

queued(_, Key, _, {Asker = #asker{under_way = Under}, Repeated}) when is_map_key(Key, Under) -> {Asker, Repeated + 1};
queued(From, Key, Asked, {Asker = #asker{queue = Queue, under_way = Under}, Repeated}) ->
    Line = #query{from = From, key = Key, asked = Asked},
    {Asker#asker{queue = queue:in(Line, Queue), under_way = Under#{Key => []}}, Repeated}.

turned(From, true, A = #askers{turns = Turns}) -> A#askers{turns = queue:in(From, Turns)};
turned(_, false, A) -> A.

%% Takes so many lines at most, a line of each who asks in turn.
-spec take(non_neg_integer(), askers()) -> {[#query{}], askers()}.
take(Most, A) -> take(Most, [], A).

take(0, Lines, A) -> {lists:reverse(Lines), A};
take(Room, Lines, A = #askers{turns = Turns, known = Known}) ->
    case queue:out(Turns) of
        {empty, _} -> {lists:reverse(Lines), A};
        {{value, From}, Others} when not is_map_key(From, Known) -> take(Room, Lines, A#askers{turns = Others});
        {{value, From}, Others} ->
            Asker = #asker{queue = Queue} = map_get(From, Known),
            {{value, Line}, Rest} = queue:out(Queue),
            After = A#askers{turns = Others, known = Known#{From := Asker#asker{queue = Rest}}},
            take(Room - 1, [Line | Lines], turned(From, not queue:is_empty(Rest), After))
    end.

%% A line has this answer, for whoever asked, if he is there. Who was told to wait is told the value that comes.
-spec answered(#query{}, binary(), {askers(), told()}) -> {askers(), told()}.
answered(#query{from = From, key = Key} = Line, Answer, {A = #askers{known = Known}, Told}) ->
    case Known of
        #{From := Asker = #asker{under_way = Under}} ->
            After = A#askers{known = Known#{From := Asker#asker{under_way = maps:remove(Key, Under)}}},
            {waits(Line, Answer, After), noted(From, {Key, Answer}, Told)};
        _ -> {A, Told}
    end.

waits(#query{from = From, asked = #asked{kind = Kind, element = E, number = N}}, Answer, A = #askers{waiters = Waiters})
        when Kind =:= request; Kind =:= again ->
    case binary:longest_common_suffix([Answer, <<" waiting">>]) of
        8 -> A#askers{waiters = Waiters#{{E, N} => From}};
        _ -> A
    end;
waits(_, _, A) -> A.

%% A value that comes later is for whoever waits for it, if anybody does. Any other answer is that to the next line.
-spec later(binary(), {askers(), told()}) -> {askers(), told()} | in_turn.
later(Answer, {A = #askers{waiters = Waiters}, Told}) ->
    case binary:split(Answer, <<" ">>) of
        [Who, <<"now ", _/binary>>] ->
            [E, N] = [binary_to_integer(It) || It <- binary:split(Who, <<".">>)],
            case maps:take({E, N}, Waiters) of
                {From, Others} -> {A#askers{waiters = Others}, noted(From, {{now, E, N}, Answer}, Told)};
                error -> {A, Told}
            end;
        _ -> in_turn
    end.

-spec forget(pid(), askers()) -> askers().
forget(From, A = #askers{known = Known, waiters = Waiters}) ->
    A#askers{known = maps:remove(From, Known), waiters = maps:filter(fun(_, Who) -> Who =/= From end, Waiters)}.

%% How many ask, and how many requests wait.
-spec sizes(askers()) -> #{askers := non_neg_integer(), waiters := non_neg_integer()}.
sizes(#askers{known = Known, waiters = Waiters}) -> #{askers => map_size(Known), waiters => map_size(Waiters)}.

-spec noted(pid(), {imem_module:key(), binary()}, told()) -> told().
noted(From, What, Told) -> maps:update_with(From, fun(Others) -> [What | Others] end, [What], Told).
