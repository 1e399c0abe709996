%% What lies beside a log: a member's name, written once, and the files of Ra that a kill leaves empty.
-module(imem_members_tests).
-include_lib("eunit/include/eunit.hrl").

folder() ->
    Folder = filename:join("/tmp", "imem-" ++ os:getpid() ++ "-" ++ integer_to_list(erlang:unique_integer([positive]))),
    ok = file:make_dir(Folder),
    Folder.

a_name_is_written_once_test() ->
    Folder = folder(),
    ok = imem_members:make(#{log => Folder}),
    {ok, Name} = file:read_file(filename:join(Folder, "member")),
    ?assertEqual(17, byte_size(Name)),
    ?assertEqual({error, eexist}, imem_members:make(#{log => Folder})),
    ?assertEqual({ok, Name}, file:read_file(filename:join(Folder, "member"))),
    ok = file:write_file(filename:join(Folder, "member"), <<>>),        % As a power cut may leave it.
    ok = imem_members:make(#{log => Folder}).

empty_files_of_a_kill_are_removed_and_others_kept_test() ->
    Folder = folder(),
    [Names, Meta] = [filename:join(Folder, It) || It <- ["names.dets", "meta.dets"]],
    [ok = file:write_file(It, Text) || {It, Text} <- [{Names, <<>>}, {Meta, <<"kept">>}]],
    ok = imem_members:clean(Folder),
    ?assertEqual({false, {ok, <<"kept">>}}, {filelib:is_file(Names), file:read_file(Meta)}).
