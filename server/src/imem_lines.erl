%% A line of a dialogue, looked at before a module gets it: its grammar, its length, and whether its client may ask it.
%%
%% What passes is spelled anew by its words. So it is one line, which the program answers by exactly one, and which
%% neither ends the program nor shifts the answers of others.
-module(imem_lines).
-export([look/2, asked/1, numeral/2]).
-export_type([element/0, asked/0, role/0, rights/0]).

-include("imem.hrl").

-type element() :: 0..65535.
-type asked() :: #asked{}.
-type role() :: full | read | backup.
-type rights() :: #{role := role(), elements := all | [element()]}.

%% What is expected of a word.
-type expected() :: waiter | element | number | address | length | value | kind | name.

-define(MOST, 18446744073709551615).
-define(MOST_QUOTED, 32).

%% A line that has to be in the grammar, as the server's own are.
-spec asked(iodata()) -> asked().
asked(Line) ->
    {ask, Asked} = look(iolist_to_binary(Line), #{role => all, elements => all}),
    Asked.

-spec look(binary(), rights() | #{role := all, elements := all}) -> {ask, asked()} | quit | {error, iodata()}.
look(Line, _) when byte_size(Line) > ?MOST_OF_A_LINE -> {error, "the line is too long"};
look(Line, Rights) ->
    case [Word || Word <- binary:split(Line, <<" ">>, [global]), Word =/= <<>>] of
        [] -> ends(first);
        [First | Rest] -> allowed(Rights, First, worded(First, Rest))
    end.

%% ---- Grammar

worded(<<"quit">>, []) -> quit;
worded(First, Rest) ->
    case behind(First) of
        none -> request(read(waiter, First), First, Rest);
        Expected -> told(kind(First), First, fitting(Rest, Expected, []))
    end.

-spec behind(binary()) -> [expected()] | none.
behind(<<"collect">>) -> [waiter];
behind(<<"entry">>) -> [waiter];
behind(<<"confirm">>) -> [element, number];
behind(<<"window">>) -> [element];
behind(<<"cell">>) -> [address];
behind(<<"block">>) -> [address];
behind(<<"backup">>) -> [name];
behind(Word) when Word =:= <<"room">>; Word =:= <<"turn">>; Word =:= <<"count">>; Word =:= <<"about">>;
        Word =:= <<"stat">>; Word =:= <<"help">>; Word =:= <<"quit">> -> [];
behind(_) -> none.

-spec behind_request(binary()) -> [expected()] | none.
behind_request(<<"alloc">>) -> [kind, length];
behind_request(<<"store">>) -> [address, value];
behind_request(<<"put">>) -> [address, value];
behind_request(Word) when Word =:= <<"fetch">>; Word =:= <<"take">>; Word =:= <<"release">>; Word =:= <<"reset">> ->
    [address];
behind_request(_) -> none.

kind(<<"confirm">>) -> confirm;
kind(<<"turn">>) -> turn;
kind(<<"backup">>) -> backup;
kind(_) -> look.

request(error, <<Digit, _/binary>> = First, _) when Digit >= $0, Digit =< $9 -> wrong(First, waiter);
request(error, First, _) -> wrong(First, first);
request({ok, _, _}, _, []) -> ends(operation);
request({ok, Who, Name}, _, [Word | Rest]) ->
    case behind_request(Word) of
        none -> wrong(Word, operation);
        Expected -> told(request, Name, fitting([Who, Word | Rest], [given, given | Expected], []))
    end.

%% The values of the words and how they are spelled, if each is what is expected of it.
fitting([], [], Found) -> {ok, lists:reverse(Found)};
fitting([], [What | _], _) -> ends(What);
fitting([Word | _], [], _) -> wrong(Word, the_end);
fitting([Given | Words], [given | Expected], Found) -> fitting(Words, Expected, [{Given, Given} | Found]);
fitting([Word | Words], [What | Expected], Found) ->
    case read(What, Word) of
        {ok, Value, Spelled} -> fitting(Words, Expected, [{Value, Spelled} | Found]);
        error -> wrong(Word, What)
    end.

-spec read(expected(), binary()) -> {ok, term(), iodata()} | error.
read(waiter, Word) ->
    case binary:split(Word, <<".">>) of
        [One, Other] -> waiter(numeral(One, 65535), numeral(Other, ?MOST));
        _ -> error
    end;
read(element, Word) -> spelled(numeral(Word, 65535));
read(What, Word) when What =:= address; What =:= length -> spelled(numeral(Word, 4294967295));
read(What, Word) when What =:= number; What =:= value -> spelled(numeral(Word, ?MOST));
read(kind, Word) when Word =:= <<"i">>; Word =:= <<"m">> -> {ok, Word, Word};
read(kind, _) -> error;
read(name, <<First, _/binary>> = Word) when First >= $a, First =< $z, byte_size(Word) =< 64 ->
    case << <<C>> || <<C>> <= Word, is_of_name(C)>> of
        Word -> {ok, Word, Word};
        _ -> error
    end;
read(name, _) -> error.

is_of_name(C) -> C >= $a andalso C =< $z orelse C >= $0 andalso C =< $9 orelse C =:= $- orelse C =:= $..

waiter(E, N) when is_integer(E), is_integer(N) ->
    {ok, {E, N}, [integer_to_binary(E), $., integer_to_binary(N)]};
waiter(_, _) -> error.

spelled(error) -> error;
spelled(Number) -> {ok, Number, integer_to_binary(Number)}.

%% The number in decimal digits, if it is at most that.
-spec numeral(binary(), non_neg_integer()) -> non_neg_integer() | error.
numeral(<<>>, _) -> error;
numeral(Word, Most) -> digits(Word, 0, Most).

digits(_, Number, Most) when Number > Most -> error;
digits(<<>>, Number, _) -> Number;
digits(<<C, Rest/binary>>, Number, Most) when C >= $0, C =< $9 -> digits(Rest, 10 * Number + C - $0, Most);
digits(_, _, _) -> error.

told(_, _, {error, Why}) -> {error, Why};
told(request, Name, {ok, [{{E, N}, _}, {_, Word} | Rest]}) ->
    {ask, #asked{kind = request, element = E, number = N, text = text([Name, Word | spellings(Rest)])}};
told(Kind, Word, {ok, [{{E, N}, Name}]}) ->
    {ask, #asked{kind = Kind, element = E, number = N, text = text([Word, Name])}};
told(Kind, Word, {ok, [{E, _} | _] = Rest}) when Word =:= <<"confirm">>; Word =:= <<"window">> ->
    {ask, #asked{kind = Kind, element = E, text = text([Word | spellings(Rest)])}};
told(Kind, Word, {ok, Rest}) -> {ask, #asked{kind = Kind, text = text([Word | spellings(Rest)])}}.

spellings(Found) -> [Spelled || {_, Spelled} <- Found].

text(Words) -> iolist_to_binary(lists:join(" ", Words)).

%% ---- Rights

allowed(_, _, {error, Why}) -> {error, Why};
allowed(_, _, quit) -> quit;
allowed(#{role := Role, elements := Elements}, First, {ask, #asked{kind = Kind, element = E}} = Told) ->
    case may(Role, Kind, First) of
        false -> {error, [quoted(First), " isn't for a client of this socket, which is for ", role(Role)]};
        true when E =:= none; Elements =:= all -> Told;
        true ->
            case lists:member(E, Elements) of
                true -> Told;
                false -> {error, ["element ", integer_to_binary(E), " isn't one of this client's"]}
            end
    end.

may(all, _, _) -> true;
may(full, Kind, _) -> Kind =/= backup;
may(read, look, Word) -> Word =/= <<"collect">> andalso Word =/= <<"room">>;
may(backup, Kind, Word) ->
    Kind =:= backup orelse lists:member(Word, [<<"count">>, <<"about">>, <<"stat">>, <<"help">>]);
may(_, _, _) -> false.

role(full) -> "all but backups";
role(read) -> "looking alone";
role(backup) -> "backups".

%% ---- Words for faults, as the program has them

ends(What) -> {error, ["the line ends, where ", expected(What), " is expected"]}.

wrong(Word, What) -> {error, [quoted(Word), ", where ", expected(What), " is expected"]}.

quoted(Word) when byte_size(Word) > ?MOST_QUOTED -> [$', escaped(binary:part(Word, 0, ?MOST_QUOTED)), "..'"];
quoted(Word) -> [$', escaped(Word), $'].

escaped(Word) -> [escape(C) || <<C>> <= Word].

escape(C) when C =:= $'; C =:= $\\ -> [$\\, C];
escape(C) when C >= 32, C < 127 -> C;
escape(C) -> io_lib:format("\\x~2.16.0b", [C]).

expected(first) ->
    "E.N, collect, entry, confirm, window, cell, block, stat, room, turn, count, about, backup, help or quit";
expected(waiter) -> "E.N, with an element's number E from 0 to 65535 and a request's number N,";
expected(operation) -> "alloc, fetch, store, take, put, release or reset";
expected(element) -> "an element's number from 0 to 65535";
expected(number) -> "a request's number";
expected(address) -> "an address from 0 to 4294967295";
expected(length) -> "a number from 0 to 4294967295";
expected(value) -> "a number from 0 to 18446744073709551615";
expected(kind) -> "i or m";
expected(name) -> "a name of 1 to 64 characters a to z, 0 to 9, - and ., the first a letter";
expected(the_end) -> "the end of the line".
