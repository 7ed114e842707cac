#!/usr/bin/env escript
%% xref.escript FOLDER..: the functions of the Erlang modules (.beam files with debug_info) in these
%% folders, and the calls between them that xref finds, a line for each, as `components` reads them:
%%
%%   examples/edges/xref.escript ebin | components
%%
%% A function is MODULE:NAME/ARITY. White space in a quoted name is written as \s.

main([]) ->
    io:format(standard_error, "usage: xref.escript FOLDER..~n", []),
    halt(2);
main(Folders) ->
    {ok, _} = xref:start(graph),
    ok = xref:set_default(graph, [{verbose, false}, {warnings, false}]),
    lists:foreach(fun(Folder) -> {ok, _} = xref:add_directory(graph, Folder) end, Folders),
    {ok, Functions} = xref:q(graph, "F"),
    {ok, Calls} = xref:q(graph, "E"),
    ok = io:setopts([{encoding, unicode}]),
    lists:foreach(fun(It) -> io:format("~ts~n", [name(It)]) end, Functions),
    lists:foreach(fun({From, To}) -> io:format("~ts ~ts~n", [name(From), name(To)]) end, Calls).

name({Module, Function, Arity}) ->
    Text = io_lib:format("~tw:~tw/~w", [Module, Function, Arity]),
    re:replace(Text, "\\s", "\\\\s", [global, unicode, {return, list}]);
name(Other) ->
    re:replace(io_lib:format("~tw", [Other]), "\\s", "\\\\s", [global, unicode, {return, list}]).
