%% A member of a module on three hosts whose disk loses its power, for `scripts/power-cut --members`. `work` is at a member
%% that stays: elements put and take a value of a cell of their own, and leave a record of each answer. `judge` is at the
%% member that was cut, and says what it finds once the other one has the same.
-module(imem_member_cut).
-export([work/1, judge/1]).

-define(ELEMENTS, 4).

%% These nodes are asked in turn.
-spec work([node()]) -> pid().
work(Nodes) ->
    spawn(fun() ->
        [<<"0.1 base 0">>] = told(Nodes, ["0.1 alloc m 8"]),
        [spawn(fun() -> worker(E, Nodes) end) || E <- lists:seq(1, ?ELEMENTS)]
    end).

worker(E, Nodes) ->
    Marks = open_port({spawn_executable, "/init"}, [{args, ["marks", "-"]}, binary, {line, 300}]),
    go_on(E, 1, Nodes, Marks).

go_on(E, N, [Node | Others], Marks) ->
    Who = [text(E), $., text(N)],
    {Line, Wanted} = case N rem 2 of
        1 -> {[Who, " put ", text(E - 1), " ", text(N)], [Who, " stored"]};
        0 -> {[Who, " take ", text(E - 1)], [Who, " value ", text(N - 1)]}
    end,
    Nodes = Others ++ [Node],
    [Answer] = told(Nodes, [Line]),
    Mark = case iolist_to_binary(Wanted) of Answer -> [text(E), " ", text(N)]; _ -> ["wrong ", Answer] end,
    true = port_command(Marks, [Mark, $\n]),
    receive {Marks, {data, _}} -> ok end,
    %% Once it is answered: a request that is repeated behind this has no answer any more.
    _ = N rem 16 =:= 0 andalso told(Nodes, [["confirm ", text(E), " ", text(N)]]),
    go_on(E, N + 1, Nodes, Marks).

text(Number) -> integer_to_list(Number).

told([Node | Others], Lines) ->
    case imem_module:asked(0, Lines, 20000, at(Node)) of
        {ok, Answers} -> Answers;
        {error, _} ->
            timer:sleep(100),
            told(Others ++ [Node], Lines)
    end.

at(Node) -> #{send => {imem_config, send}, modules => #{0 => #{nodes => [Node]}}}.

%% Of each element its window and its cell.
-spec judge([node()]) -> pid().
judge(Others) ->
    spawn(fun() ->
        Lines = [[Word, text(E - Less)] || E <- lists:seq(1, ?ELEMENTS), {Word, Less} <- [{"window ", 0}, {"cell ", 1}]],
        Asked = told([node()], Lines),
        alike([node() | Others], Lines, Asked),
        io:format("found ~s~n", [lists:join($;, Asked)])
    end).

alike(Nodes, Lines, Wanted) ->
    case [It || It <- Nodes, imem_module:looked(0, Lines, 5000, at(It)) =/= {ok, Wanted}] of
        [] -> ok;
        Left ->
            timer:sleep(50),
            alike(Left, Lines, Wanted)
    end.
