%% @doc Two Erlang nodes with a replica each, which sync over Erlang's distribution.
%%
%% The application antientropy is in a folder of ERL_LIBS:
%%
%%     erlc -o FOLDER examples/two_nodes/*.erl
%%     erl -noinput -pa FOLDER -name a@127.0.0.1 -setcookie COOKIE -s two_nodes main
-module(two_nodes).

-export([main/0]).

-define(KEYS, 1000).

%% @doc Makes the other node, puts keys at both, syncs both ways, and prints what both have.
main() ->
    Cookie = atom_to_list(erlang:get_cookie()),
    {ok, _, B} = peer:start_link(#{
        name => b,
        host => "127.0.0.1",
        longnames => true,
        args => ["-setcookie", Cookie, "-pa", filename:dirname(code:which(?MODULE))]
    }),
    {ok, _} = replica_server:start_link(1),
    {ok, _} = erpc:call(B, gen_server, start, [{local, replica_server}, replica_server, 2, []]),
    [{ok, _} = replica_server:put(node(), key(Number), <<"of a">>, #{}) || Number <- lists:seq(1, ?KEYS)],
    {ok, _} = replica_server:put(node(), <<"cart">>, <<"milk">>, #{}),
    {ok, _} = replica_server:put(B, <<"cart">>, <<"eggs">>, #{}),
    report("b took", replica_server:sync(B, node())),
    report("a took", replica_server:sync(node(), B)),
    report("b took", replica_server:sync(B, node())),
    {ok, Versions} = replica_server:get(node(), <<"cart">>),
    {ok, Versions} = replica_server:get(B, <<"cart">>),
    io:format("cart at both: ~s~n", [lists:join(" | ", [Value || #{value := Value} <- Versions])]),
    halt().

key(Number) ->
    <<"key ", (integer_to_binary(Number))/binary>>.

report(Text, {ok, #{report := finished, accepted := Accepted}}) ->
    io:format("~s ~b~n", [Text, Accepted]).
