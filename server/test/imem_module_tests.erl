%% Asking a module and waiting for it.
-module(imem_module_tests).
-include_lib("eunit/include/eunit.hrl").

%% A module that answers the first question only once it hears the second.
an_answer_that_comes_late_is_not_the_next_one_test() ->
    Config = #{send => {imem_config, send}, modules => #{0 => #{nodes => [node()]}}},
    Module = spawn_link(fun() ->
        First = heard(),
        Second = heard(),
        tell(First, <<"count 1">>),
        tell(Second, <<"count 2">>)
    end),
    register(imem_module:name(0), Module),
    ?assertEqual({error, late}, imem_module:asked(0, ["count"], 20, Config)),
    ?assertEqual({ok, [<<"count 2">>]}, imem_module:asked(0, ["count"], 5000, Config)).

heard() -> receive {'$gen_cast', {ask, From, [{Key, _}]}} -> {From, Key} end.

tell({From, Key}, Answer) -> From ! {imem_told, 0, [{Key, Answer}]}.
