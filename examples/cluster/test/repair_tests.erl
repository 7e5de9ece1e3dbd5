%% @doc Rounds of repair during continuous puts. The other holders of the range are replicas of the test.
-module(repair_tests).

-include_lib("eunit/include/eunit.hrl").

-define(RANGE, 0).
-define(CLIENTS, 64).
-define(ROUNDS, 10).
%% Clients that put at each partner.
-define(CLIENTS_THERE, 4).
%% The snapshots that the partners have offered.
-define(OFFERED, ?MODULE).

%% A range whose disk was lost takes all from both partners in each round, and they take all from it, while 64 clients
%% put here and others put there. Afterwards all three are equal, no session is left, and a restart from its checkpoints
%% has everything.
lost_disk_test_() ->
    room:test([{limit, 100000}, {checkpoint_entries, 500}], fun(_) ->
        Partners = #{2 => partner(2), 3 => partner(3)},
        Other = fun(Place, cluster_range, Function, Arguments) -> serve(Function, Place, Arguments, Partners) end,
        with(Other, fun() -> repair(Partners) end)
    end).

%% A link carries 100 KB per second, for which this test doesn't wait. The range is missing leaves of 60 KB, whose size
%% it doesn't know: the first message has too little time, and the next round has more.
slow_link_test_() ->
    room:test([], fun(_) ->
        {ok, Partner} = antientropy:new(cluster_ring:replica_options(?RANGE)),
        Value = binary:copy(<<"v">>, 60000),
        [{ok, _} = antientropy:put(Partner, life(2), room:key(Number), Value) || Number <- lists:seq(1, 40)],
        Other = fun(Place, cluster_range, Function, Arguments, LimitMs) ->
            Result = serve(Function, Place, Arguments, #{2 => Partner}),
            erlang:external_size(Result) div 100 =< LimitMs orelse error({erpc, timeout}),
            Result
        end,
        with(Other, fun() ->
            ?assert(lists:member({?RANGE, 2}, cluster_repair:round())),
            ?assertNot(lists:member({?RANGE, 2}, cluster_repair:round())),
            ?assertMatch(#{entries := 40, sessions := 0}, cluster_range:counts(?RANGE))
        end)
    end).

%% A place that falsifies each patch, or refuses the outlines because it doesn't know them, is asked plainly.
outlines_without_a_text_test_() ->
    Lie = fun(Patch) ->
        Most = byte_size(Patch) - 1,
        <<Before:Most/binary, Last>> = Patch,
        {ok, <<Before/binary, (Last bxor 1)>>}
    end,
    Refuse = fun(_) -> {error, bad_message} end,
    [room:test([], fun(_) -> outlines_without_a_text(Change) end) || Change <- [Lie, Refuse]].

outlines_without_a_text(Change) ->
    {ok, Partner} = antientropy:new(cluster_ring:replica_options(?RANGE)),
    Test = self(),
    Changed = fun
        (<<4, _/binary>>, {ok, Patch}) ->
            Test ! outlined,
            Change(Patch);
        (_, Answer) ->
            Answer
    end,
    Other = fun
        (2, cluster_range, serve, [_, _, _, Asks] = Arguments) ->
            lists:zipwith(Changed, Asks, serve(serve, 2, Arguments, #{}));
        (Place, cluster_range, Function, Arguments) ->
            serve(Function, Place, Arguments, #{2 => Partner})
    end,
    Value = binary:copy(<<"v">>, 300),
    with(Other, fun() ->
        [{ok, _} = cluster_range:put(?RANGE, room:key(Number), Value, #{}) || Number <- lists:seq(1, 60)],
        ?assertMatch({ok, #{report := finished}}, pull(2, Partner)),
        [{ok, _} = antientropy:put(Partner, life(2), room:key(Number), <<"new">>) || Number <- lists:seq(1, 20)],
        ?assertNot(lists:member({?RANGE, 2}, cluster_repair:round())),
        ?assertMatch(#{entries := 80, sessions := 0}, cluster_range:counts(?RANGE)),
        receive
            outlined -> ok
        end
    end).

%% Runs a test with a range. Calls of other places are calls of a function.
with(Other, Test) ->
    ?OFFERED = ets:new(?OFFERED, [named_table, public]),
    [{ok, _} = Module:start_link() || Module <- [cluster_slots, cluster_repair]],
    start(),
    try
        links:with(Other, Test)
    after
        [ok = room:kill(Name) || Name <- [cluster_repair, cluster_slots]],
        true = ets:delete(?OFFERED)
    end.

repair(Partners) ->
    Clients = begin_clients(Partners),
    try
        [ok = exchange(Partners) || _ <- lists:seq(1, ?ROUNDS)],
        [ok = stop(Client) || Client <- Clients]
    after
        [exit(Client, kill) || {Client, _} <- Clients]
    end,
    ?assert(cluster_range:is_joined(?RANGE)),
    ok = exchange(Partners),
    ?assertMatch(#{sessions := 0}, cluster_range:counts(?RANGE)),
    {Root, _} = Before = cluster_range:dump(?RANGE),
    [?assertEqual({ok, Root}, antientropy:root(Partner)) || {_, Partner} <- maps:to_list(Partners)],
    ok = room:kill(cluster_range_0),
    start(),
    ?assertEqual(Before, cluster_range:dump(?RANGE)).

start() ->
    {ok, Range} = cluster_range:start_link(?RANGE),
    true = unlink(Range),
    ok.

%% Runs a round here, and then one at each partner.
exchange(Partners) ->
    ?assertEqual([], [Lacking || {?RANGE, _} = Lacking <- cluster_repair:round()]),
    [?assertMatch({ok, #{report := finished}}, pull(Place, Partner)) || {Place, Partner} <- maps:to_list(Partners)],
    ok.

pull(Place, Partner) ->
    {ok, Offer} = cluster_range:offer(?RANGE, Place),
    {ok, #{number := Number}} = antientropy:read_offer(Offer),
    antientropy:sync(Partner, 1, Offer, fun(Asks) -> cluster_range:serve(?RANGE, Place, Number, Asks) end).

%% ---- the partners

partner(Place) ->
    {ok, Partner} = antientropy:new(cluster_ring:replica_options(?RANGE)),
    [{ok, _} = antientropy:put(Partner, life(Place), Key, <<"value">>) || Key <- keys("filled", Place)],
    Partner.

life(Place) -> 32 + Place.

keys(Name, Place) ->
    All = [iolist_to_binary(io_lib:format("~s ~b ~b", [Name, Place, Number])) || Number <- lists:seq(1, 1000)],
    [Key || Key <- All, cluster_ring:range(Key) =:= {ok, ?RANGE}].

%% Serves a partner's side of a round here. The round also asks the partners of the range 3, which are down.
serve(offer, Place, [?RANGE, 1], Partners) when is_map_key(Place, Partners) ->
    {ok, Snapshot} = antientropy:snapshot(maps:get(Place, Partners)),
    true = ets:insert(?OFFERED, {Place, Snapshot}),
    antientropy_snapshot:offer(Snapshot, Place);
serve(serve, Place, [?RANGE, 1, Number, Asks], _) ->
    [{_, Snapshot}] = ets:lookup(?OFFERED, Place),
    [antientropy_snapshot:serve(Snapshot, Number, Ask) || Ask <- Asks];
serve(offer, _, _, _) ->
    error({erpc, noconnection}).

%% ---- clients, each with a key of its own

begin_clients(Partners) ->
    Here = [put_here(room:key(Number)) || Number <- lists:seq(1, ?CLIENTS)],
    There = [
        put_there(Partner, life(Place), Key)
     || {Place, Partner} <- maps:to_list(Partners), Key <- lists:sublist(keys("busy", Place), ?CLIENTS_THERE)
    ],
    [spawn_monitor(fun() -> put_on(Put, #{}) end) || Put <- Here ++ There].

put_here(Key) ->
    fun(Context) ->
        {ok, #{clock := Clock}} = cluster_range:put(?RANGE, Key, <<"again">>, Context),
        Clock
    end.

%% A put takes no time there, since it doesn't wait for a disk.
put_there(Partner, Life, Key) ->
    fun(Context) ->
        timer:sleep(1),
        {ok, #{counter := Counter}} = antientropy:put(Partner, Life, Key, <<"again">>, Context),
        Context#{Life => Counter}
    end.

%% Puts with the clock of the previous put, until it is stopped.
put_on(Put, Context) ->
    receive
        stop -> ok
    after 0 -> put_on(Put, Put(Context))
    end.

stop({Client, Monitor}) ->
    Client ! stop,
    receive
        {'DOWN', Monitor, process, Client, Reason} -> ?assertEqual(normal, Reason)
    end,
    ok.
