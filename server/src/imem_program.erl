%% What elements do, as a behaviour: a program of rounds, which an element's number alone tells, so that nothing of it
%% has to be kept. It is deterministic: given the same answers it asks the same.
%%
%% A round is reads, then writes. The value of a write comes from what the read beside it found and from what was
%% written before it in the round. Addresses are interleaved: the cell of address A is with the module A rem M.
-module(imem_program).
-export([setup/2, rounds/2, written/3, ended/3]).
-export_type([request/0, rounds/0, placed/0]).

-type request() :: {fetch | store | take | put, Address :: non_neg_integer()}.
-type rounds() :: [{Reads :: [request()], Writes :: [request()]}].
-type placed() :: {Module :: non_neg_integer(), fetch | store | take | put, Cell :: non_neg_integer()}.

%% The kind and the length of the memory that all elements share.
-callback block(Arguments :: term()) -> {i | m, pos_integer()}.
%% The rounds of one of so many elements, which are numbered from 1.
-callback rounds(imem_lines:element(), Many :: pos_integer(), Arguments :: term()) -> rounds().
%% The value of a write, by what was read beside it and what was written before it; `none` where nothing was.
-callback written(Arguments :: term(), none | non_neg_integer(), none | non_neg_integer()) -> non_neg_integer().
%% What to do once an element is through: since when it was at work, and how long modules were away.
-callback ended(imem_lines:element(), imem_element:report(), Arguments :: term()) -> term().
-optional_callbacks([ended/3]).

%% What a module is asked as element 0 when it starts, and what each line has to come to: the numbers make it the same
%% each time. The first three cells hold the cluster's number, how many modules it has, and which of them this is, so an
%% image that belongs elsewhere answers `refused 4 Mismatch`. The block behind them is the module's share of the memory.
-spec setup(non_neg_integer(), imem_config:config()) -> [{iodata(), binary()}].
setup(_, #{cluster := none}) -> [];
setup(K, #{cluster := #{number := Cluster, program := {Module, Arguments}}, modules := Modules}) ->
    {Kind, Cells} = Module:block(Arguments),
    Share = integer_to_list((Cells + maps:size(Modules) - 1) div maps:size(Modules)),
    [{"0.1 alloc i 3", <<"0.1 base 0">>},
        {["0.2 store 0 ", integer_to_list(Cluster)], <<"0.2 stored">>},
        {["0.3 store 1 ", integer_to_list(maps:size(Modules))], <<"0.3 stored">>},
        {["0.4 store 2 ", integer_to_list(K)], <<"0.4 stored">>},
        {["0.5 alloc ", atom_to_list(Kind), " ", Share], <<"0.5 base 3">>}].

%% The rounds of an element: of each request its module, its verb and its cell there.
-spec rounds(imem_lines:element(), imem_config:config()) -> [{[placed()], [placed()]}].
rounds(E, #{modules := Modules, cluster := #{program := {Module, Arguments}, elements := Elements}}) ->
    Many = maps:size(Modules),
    Place = fun({Verb, A}) -> {A rem Many, Verb, 3 + A div Many} end,
    Rounds = Module:rounds(E, length(Elements), Arguments),
    [{lists:map(Place, Reads), lists:map(Place, Writes)} || {Reads, Writes} <- Rounds].

-spec written(imem_config:config(), none | non_neg_integer(), none | non_neg_integer()) -> non_neg_integer().
written(#{cluster := #{program := {Module, Arguments}}}, Read, Before) -> Module:written(Arguments, Read, Before).

-spec ended(imem_lines:element(), imem_element:report(), imem_config:config()) -> ok.
ended(E, Report, #{cluster := #{program := {Module, Arguments}}}) ->
    _ = erlang:function_exported(Module, ended, 3) andalso Module:ended(E, Report, Arguments),
    ok.
