%% Lines that are asked as they are, spelled anew, or refused in words.
-module(imem_lines_tests).
-include_lib("eunit/include/eunit.hrl").
-include("../include/imem.hrl").

-define(FULL, #{role => full, elements => all}).

asked(Line) ->
    {ask, #asked{text = Text}} = imem_lines:look(Line, ?FULL),
    Text.

wrong(Line, Rights) ->
    {error, Why} = imem_lines:look(Line, Rights),
    iolist_to_binary(Why).

a_line_is_spelled_by_its_words_test() ->
    Lines = [<<"1.2 alloc i 3">>, <<"0.1 alloc m 4294967295">>, <<"65535.18446744073709551615 take 0">>,
        <<"1.1 put 5 18446744073709551615">>, <<"1.1 store 5 6">>, <<"1.1 fetch 5">>, <<"1.1 release 5">>, <<"1.1 reset 5">>,
        <<"collect 1.2">>, <<"entry 1.2">>, <<"confirm 1 2">>, <<"window 1">>, <<"cell 1">>, <<"block 1">>, <<"room">>,
        <<"turn">>, <<"count">>, <<"about">>, <<"stat">>, <<"help">>],
    [?assertEqual(Line, asked(Line)) || Line <- Lines],
    ?assertEqual(<<"1.2 take 3">>, asked(<<"  01.002   take 003 ">>)).

no_line_is_two_or_ends_the_program_test() ->
    ?assertEqual(quit, imem_lines:look(<<"quit">>, ?FULL)),
    ?assertEqual(<<"'take\\x0aquit', where alloc, fetch, store, take, put, release or reset is expected">>,
        wrong(<<"1.1 take\nquit">>, ?FULL)),
    ?assertEqual(<<"'quit\\x0d', where E.N, collect, entry, confirm, window, cell, block, stat, room, turn, count, about, ",
        "backup, help or quit is expected">>, wrong(<<"quit\r">>, ?FULL)),
    ?assertEqual(<<"the line is too long">>, wrong(binary:copy(<<"x">>, 4097), ?FULL)).

a_fault_is_said_where_it_is_test_() ->
    Faults = [
        {<<"1.1">>, <<"the line ends, where alloc, fetch, store, take, put, release or reset is expected">>},
        {<<"1.1 take">>, <<"the line ends, where an address from 0 to 4294967295 is expected">>},
        {<<"1.1 take 4294967296">>, <<"'4294967296', where an address from 0 to 4294967295 is expected">>},
        {<<"1.1 take 1 2">>, <<"'2', where the end of the line is expected">>},
        {<<"1.1 alloc x 2">>, <<"'x', where i or m is expected">>},
        {<<"65536.1 take 1">>, <<"'65536.1', where E.N, with an element's number E from 0 to 65535 and a request's number N, is expected">>},
        {<<"window">>, <<"the line ends, where an element's number from 0 to 65535 is expected">>},
        {<<"confirm 1 -1">>, <<"'-1', where a request's number is expected">>},
        {<<"count 1">>, <<"'1', where the end of the line is expected">>},
        {<<"cell ", 255>>, <<"'\\xff', where an address from 0 to 4294967295 is expected">>}
    ],
    [?_assertEqual(Why, wrong(Line, ?FULL)) || {Line, Why} <- Faults].

a_role_has_its_words_test_() ->
    Looks = [<<"stat">>, <<"cell 1">>, <<"block 1">>, <<"window 1">>, <<"entry 1.1">>, <<"count">>, <<"about">>, <<"help">>],
    Others = [<<"1.1 take 0">>, <<"confirm 1 2">>, <<"collect 1.1">>, <<"room">>, <<"turn">>, <<"backup a">>],
    Backups = [<<"backup a-1.img">>, <<"count">>, <<"about">>, <<"stat">>],
    May = fun(Role, Line) -> element(1, imem_lines:look(Line, #{role => Role, elements => all})) end,
    [?_assertEqual(ask, May(read, Line)) || Line <- Looks]
        ++ [?_assertEqual(error, May(read, Line)) || Line <- Others]
        ++ [?_assertEqual(ask, May(backup, Line)) || Line <- Backups]
        ++ [?_assertEqual(error, May(backup, Line)) || Line <- Others ++ [<<"cell 1">>], Line =/= <<"backup a">>]
        ++ [?_assertEqual(error, May(full, <<"backup a">>)), ?_assertEqual(ask, May(full, <<"turn">>))].

a_client_has_its_elements_test_() ->
    Bound = #{role => full, elements => [3, 4]},
    [?_assertMatch({ask, _}, imem_lines:look(Line, Bound)) || Line <- [<<"3.1 take 0">>, <<"window 4">>, <<"cell 9">>, <<"count">>]]
        ++ [?_assertEqual(<<"element 5 isn't one of this client's">>, wrong(Line, Bound))
            || Line <- [<<"5.1 take 0">>, <<"window 5">>, <<"confirm 5 2">>, <<"collect 5.1">>, <<"entry 5.1">>]].

%% Any bytes are looked at, and what passes is one line of ASCII that passes again as itself.
any_bytes_are_looked_at_test() ->
    _ = rand:seed(exsss, {1, 2, 3}),
    Words = [<<"1.1">>, <<"take">>, <<"put">>, <<"5">>, <<"confirm">>, <<"\n">>, <<0>>, <<"quit">>, <<"alloc">>, <<"m">>, <<255, 13>>],
    Line = fun() -> iolist_to_binary(lists:join(" ", [lists:nth(rand:uniform(length(Words)), Words) || _ <- lists:seq(1, rand:uniform(5))])) end,
    [case imem_lines:look(It, ?FULL) of
        {ask, #asked{text = Text}} -> ?assertEqual({Text, nomatch}, {asked(Text), binary:match(Text, <<"\n">>)});
        quit -> ?assertEqual(<<"quit">>, It);
        {error, Why} -> ?assert(is_binary(iolist_to_binary(Why)))
    end || It <- [Line() || _ <- lists:seq(1, 2000)]].
