#!/usr/bin/env escript
%% An outage and its repair: two replicas write apart, take over what they lack, and merge the key that both wrote.
%% ERL_LIBS is the folder that has the application antientropy.
-mode(compile).

-define(A, 1).
-define(B, 2).

main(_) ->
    {ok, A} = antientropy:new(),
    {ok, B} = antientropy:new(),
    {ok, _} = antientropy:put(A, ?A, <<"order">>, <<"paid">>),
    sync(B, A, ?A),
    {ok, _} = antientropy:put(A, ?A, <<"cart">>, <<"milk">>),
    {ok, _} = antientropy:put(A, ?A, <<"gift">>, <<"wrapped">>),
    {ok, _} = antientropy:put(B, ?B, <<"cart">>, <<"eggs">>),
    io:format("a has ~b keys, b has ~b~n", [keys(A), keys(B)]),
    io:format("roots equal: ~s~n", [equal(A, B)]),
    io:format("b took ~s~n", [count(sync(B, A, ?A))]),
    io:format("a took ~s~n", [count(sync(A, B, ?B))]),
    Values = values(A, <<"cart">>),
    Values = values(B, <<"cart">>),
    io:format("cart at both: ~s~n", [Values]),
    {ok, Versions} = antientropy:get(A, <<"cart">>),
    {ok, Context} = antientropy:merge([Clock || #{clock := Clock} <- Versions]),
    {ok, _} = antientropy:put(A, ?A, <<"cart">>, <<"milk, eggs">>, Context),
    sync(B, A, ?A),
    io:format("merged: ~s~n", [values(B, <<"cart">>)]),
    io:format("roots equal: ~s~n", [equal(A, B)]),
    antientropy:close(A),
    antientropy:close(B).

%% Takes what the partner has, and returns the number of new versions. Here its snapshot is called directly; elsewhere
%% the messages go over a network.
sync(Replica, Partner, Node) ->
    {ok, Snapshot} = antientropy:snapshot(Partner),
    {ok, Offer} = antientropy_snapshot:offer(Snapshot, 1),
    Reach = fun(Asks) -> [antientropy_snapshot:serve(Snapshot, 1, Ask) || Ask <- Asks] end,
    {ok, #{report := finished, accepted := Accepted}} = antientropy:sync(Replica, Node, Offer, Reach),
    ok = antientropy_snapshot:close(Snapshot),
    Accepted.

%% Returns the number of keys.
keys(Replica) ->
    {ok, Keys} = antientropy:keys(Replica),
    length(Keys).

%% Returns a number of versions in words.
count(1) -> "1 version";
count(Number) -> io_lib:format("~b versions", [Number]).

%% Returns "yes" if the roots are equal.
equal(A, B) ->
    {ok, RootA} = antientropy:root(A),
    {ok, RootB} = antientropy:root(B),
    case RootA =:= RootB of
        true -> "yes";
        false -> "no"
    end.

%% Returns the values of a key.
values(Replica, Key) ->
    {ok, Versions} = antientropy:get(Replica, Key),
    lists:join(" | ", [Value || #{value := Value} <- Versions]).
