%% Renewals in place, while other processes put, in two steps, and started by calls.
-module(renewal_tests).

-include_lib("eunit/include/eunit.hrl").

-import(support, [replica/0, replica/1, live/2, fill/2, key/1, refused/3, badarg/1, async/1, await/1, stop/1, kill/1]).

-define(WRITERS, 3).
-define(KEYS, 50).
-define(RENEWALS, 10).

in_place_test() ->
    Replica = replica(#{limit => 10}),
    rewrite(Replica, 2),
    Root = antientropy:root(Replica),
    ok = antientropy:renew_in_place(Replica, 5),
    ?assertMatch({ok, #{entries := 2, first := 1, limit := 5}}, antientropy:count(Replica)),
    ?assertEqual({ok, [live(#{1 => 2}, <<>>)]}, antientropy:get(Replica, <<"k">>)),
    ?assertEqual(Root, antientropy:root(Replica)),
    ?assertEqual({ok, []}, antientropy:entries(Replica, 2)),
    ?assertEqual({error, bad_position}, antientropy:entries(Replica, 0)),
    ?assertEqual({ok, #{number => 2, counter => 1}}, antientropy:put(Replica, 1, <<"other">>, <<>>)),
    ?assertMatch({ok, [#{key := <<"other">>}]}, antientropy:entries(Replica, 2)),
    ok = antientropy:renew_in_place(Replica),
    ?assertMatch({ok, #{entries := 3, limit := 1_000_000}}, antientropy:count(Replica)).

%% A refused renewal leaves the replica unchanged, but for its moment.
refusals_test() ->
    Replica = fill(replica(#{limit => 10}), 3),
    {ok, _} = antientropy:root(Replica),
    [
        begin
            refused(Name, Replica, fun() -> antientropy:renew_in_place(Replica, Limit) end),
            refused(Name, Replica, fun() -> antientropy:renewal(Replica, Limit) end)
        end
     || {Name, Limit} <- [{bad_ring, 0}, {bad_ring, 1_000_001}, {journal_full, 2}]
    ],
    ?assertEqual({error, dirty}, antientropy:moment(Replica)),
    [
        badarg(fun() -> antientropy:Function(Of, Limit) end)
     || Function <- [renew_in_place, renewal],
        {Of, Limit} <- [{Replica, none}, {Replica, -1}, {Replica, 1 bsl 64}, {make_ref(), 1}]
    ],
    badarg(fun() -> antientropy_renewal:finish(Replica) end),
    badarg(fun() -> antientropy_renewal:close(make_ref()) end).

%% A renewal ends an exchange in progress.
sessions_end_test() ->
    Replica = replica(),
    Partner = fill(replica(), 3),
    {ok, Snapshot} = antientropy:snapshot(Partner),
    {ok, Offer} = antientropy_snapshot:offer(Snapshot, 1),
    {ok, Exchange} = antientropy:exchange(Replica, 2, Offer, #{}),
    ok = antientropy:renew_in_place(Replica, 100),
    ?assertMatch({ok, #{report := gone}}, antientropy_exchange:progress(Exchange)),
    ok = antientropy_exchange:close(Exchange),
    ?assertMatch(#{accepted := 3}, support:sync(Replica, Partner)).

%% Writers put, a log reads on, and the replica is renewed ten times. Nothing is lost, here or in the log.
beside_writers_test_() ->
    {timeout, 120, fun() ->
        Replica = replica(#{limit => 1_000_000}),
        Writers = [async(fun() -> write(Replica, Node, 0) end) || Node <- lists:seq(1, ?WRITERS)],
        Log = async(fun() -> log(Replica, 0, #{}) end),
        [
            begin
                until(fun() -> entries(Replica) >= Count * 2 * ?WRITERS * ?KEYS end),
                ok = antientropy:renew_in_place(Replica, 1_000_000)
            end
         || Count <- lists:seq(1, ?RENEWALS)
        ],
        until(fun() -> length(element(2, antientropy:keys(Replica))) =:= ?WRITERS * ?KEYS end),
        Puts = [stop(Writer) || Writer <- Writers],
        Logged = stop(Log),
        [
            ?assertEqual({ok, [live(#{Node => Counter}, <<>>)]}, antientropy:get(Replica, key(Node, Number)))
         || {Node, Count} <- lists:enumerate(Puts),
            Number <- lists:seq(0, ?KEYS - 1),
            Counter <- [(Count + ?KEYS - 1 - Number) div ?KEYS]
        ],
        {ok, #{entries := Entries, first := First}} = antientropy:count(Replica),
        ?assertEqual({lists:sum(Puts), ?WRITERS * ?KEYS}, {Entries, length(element(2, antientropy:keys(Replica)))}),
        ?assert(First > ?RENEWALS * ?WRITERS * ?KEYS),
        ?assertEqual(antientropy:root(Replica), antientropy:root(restored(Logged)))
    end}.

%% Puts the keys of a node in turn until it is stopped, and returns the number of puts.
write(Replica, Node, Count) ->
    receive
        stop -> Count
    after 0 ->
        Context = [{Node, Count div ?KEYS} || Count >= ?KEYS],
        {ok, _} = antientropy:put(Replica, Node, key(Node, Count rem ?KEYS), <<>>, Context),
        write(Replica, Node, Count + 1)
    end.

key(Node, Number) ->
    <<Node, Number:16>>.

%% Reads entries from a position on until it is stopped.
log(Replica, Position, Log) ->
    {Next, Logged} = read(Replica, Position, Log),
    receive
        stop -> element(2, read(Replica, Next, Logged))
    after 0 -> log(Replica, Next, Logged)
    end.

%% Adds the entries from a position on to a log: all that are there if it lags behind a renewal.
read(Replica, Position, Log) ->
    case antientropy:entries(Replica, Position) of
        {ok, Entries} ->
            Numbered = maps:from_list([{Number, Entry} || #{number := Number} = Entry <- Entries]),
            {Position + length(Entries), maps:merge(Log, Numbered)};
        {error, bad_position} ->
            read(Replica, first(Replica), Log)
    end.

restored(Log) ->
    Restored = replica(#{limit => 1_000_000}),
    [{ok, _} = antientropy:accept(Restored, Key, Entry) || {_, #{key := Key} = Entry} <- lists:sort(maps:to_list(Log))],
    Restored.

%% Processes renew a replica at once: one is refused, or both are done, and nothing is lost.
at_once_test_() ->
    {timeout, 60, fun() ->
        Replica = replica(),
        [
            begin
                Renewing = [async(fun() -> antientropy:renew_in_place(Replica, 10_000) end) || _ <- [1, 2]],
                rewrite(Replica, Round * 40),
                [?assert(lists:member(await(Each), [ok, {error, stale}])) || Each <- Renewing]
            end
         || Round <- lists:seq(1, 10)
        ],
        ?assertEqual({ok, [live(#{1 => 400}, <<>>)]}, antientropy:get(Replica, <<"k">>)),
        ?assertEqual(400, entries(Replica))
    end}.

%% A renewal takes effect when its program wants, with all that was put meanwhile.
in_two_steps_test() ->
    Replica = replica(),
    rewrite(Replica, 10),
    {ok, Renewal} = antientropy:renewal(Replica, 5_000),
    rewrite(Replica, 2_000),
    ?assertMatch({ok, #{first := 0, limit := 10_000}}, antientropy:count(Replica)),
    {ok, Root} = antientropy:root(Replica),
    ok = antientropy_renewal:finish(Renewal),
    ?assertMatch({ok, #{entries := 2_000, first := 9, limit := 5_000}}, antientropy:count(Replica)),
    ?assertEqual({ok, Root}, antientropy:root(Replica)),
    ?assertMatch({ok, [#{number := 10, clock := #{1 := 11}, source := copy} | _]}, antientropy:entries(Replica, 10)),
    ?assertEqual({error, empty}, antientropy_renewal:finish(Renewal)),
    [ok = antientropy_renewal:close(Renewal) || _ <- [1, 2]],
    ?assertEqual({error, empty}, antientropy_renewal:finish(Renewal)),
    ?assertEqual({ok, [live(#{1 => 2_000}, <<>>)]}, antientropy:get(Replica, <<"k">>)).

%% The second of two renewals is refused, and one whose limit is too low for later puts, and one of a closed replica.
finish_refused_test() ->
    Replica = replica(),
    rewrite(Replica, 5),
    [{ok, First}, {ok, Second}] = [antientropy:renewal(Replica, Limit) || Limit <- [9, 8]],
    ok = antientropy_renewal:finish(First),
    refused(stale, Replica, fun() -> antientropy_renewal:finish(Second) end),
    {ok, Third} = antientropy:renewal(Replica, 2),
    rewrite(Replica, 7),
    refused(journal_full, Replica, fun() -> antientropy_renewal:finish(Third) end),
    {ok, Fourth} = antientropy:renewal(Replica, 9),
    ok = antientropy:close(Replica),
    ?assertEqual({error, empty}, antientropy_renewal:finish(Fourth)),
    [ok = antientropy_renewal:close(Renewal) || Renewal <- [First, Second, Third, Fourth]].

%% A large replica takes puts while it is renewed.
large_test_() ->
    {timeout, 120, fun() ->
        Replica = fill(replica(#{limit => 100_000}), 50_000),
        rewrite(Replica, 1_000),
        Puts = renewed_beside_puts(Replica, 1_000),
        ?assertMatch({ok, #{first := First}} when First >= 999, antientropy:count(Replica)),
        ?assertEqual({ok, [live(#{1 => Puts}, <<>>)]}, antientropy:get(Replica, <<"k">>))
    end}.

%% Renews a replica until it takes a hundred puts meanwhile. Returns the counter of the last one.
renewed_beside_puts(Replica, Counter) ->
    Renewing = async(fun() -> antientropy:renew_in_place(Replica, 100_000) end),
    Puts = puts_while(Renewing, Replica, Counter),
    ?assertEqual(ok, await(Renewing)),
    case Puts > Counter + 100 of
        true -> Puts;
        false -> renewed_beside_puts(Replica, Puts)
    end.

%% Processes that are killed while they renew a replica leave it unchanged, or renewed, and no call waits for them.
killed_test_() ->
    {timeout, 60, fun() ->
        Replica = fill(replica(#{limit => 100_000}), 10_000),
        rewrite(Replica, 1_000),
        [
            begin
                Renewing = async(fun() -> antientropy:renew_in_place(Replica, 100_000) end),
                timer:sleep(Millis),
                kill(Renewing),
                ?assert(lists:member(first(Replica), [0, 999])),
                ?assertEqual({ok, [live(#{1 => 1_000}, <<>>)]}, antientropy:get(Replica, <<"k">>))
            end
         || Millis <- lists:seq(0, 40, 2)
        ],
        ok = antientropy:renew_in_place(Replica, 100_000),
        ?assertMatch({ok, #{entries := 11_000, first := 999}}, antientropy:count(Replica))
    end}.

%% A process that renews a kept replica is killed: a later put starts another one.
killed_keeper_test() ->
    Replica = replica(#{limit => 100}),
    rewrite(Replica, 100),
    ok = kept_by_other(Replica),
    until(fun() -> first(Replica) =:= 99 end).

%% Keeps a replica renewed, after another process has begun the renewal that is due and was killed.
kept_by_other(Replica) ->
    {renew, Replica, ok} = antientropy_nif:keep_renewed(Replica),
    Self = self(),
    Renewing = async(fun() ->
        {ok, _, 100} = antientropy_nif:due_renewal(Replica),
        Self ! begun,
        receive after infinity -> ok end
    end),
    receive
        begun -> ok
    end,
    ?assertEqual(ok, antientropy_nif:due_renewal(Replica)),
    kill(Renewing),
    until(fun() -> {error, journal_full} =/= antientropy:put(Replica, 2, <<"other">>, <<>>) end).

puts_while({Process, _} = Call, Replica, Counter) ->
    case is_process_alive(Process) of
        true ->
            {ok, _} = put_next(Replica, Counter),
            puts_while(Call, Replica, Counter + 1);
        false ->
            Counter
    end.

%% One key is put fifty times as often as the journal has entries, with no other call.
kept_test_() ->
    {timeout, 60, fun() ->
        Replica = replica(#{limit => 2_000}),
        ok = antientropy:keep_renewed(Replica),
        rewrite(Replica, 100_000),
        ?assertEqual({ok, [live(#{1 => 100_000}, <<>>)]}, antientropy:get(Replica, <<"k">>)),
        ?assertMatch({ok, #{entries := 100_000, limit := 2_000}}, antientropy:count(Replica))
    end}.

%% Each call that fills a journal starts renewals.
kept_by_each_call_test_() ->
    Calls = [
        {put, fun(Replica, Count) -> antientropy:put(Replica, 1, <<"k">>, <<>>, context(Count)) end},
        {put_unread, fun(Replica, Count) -> antientropy:put_unread(Replica, 1, <<"k">>, <<>>, context(Count)) end},
        {accept, fun(Replica, Count) -> antientropy:accept(Replica, <<"k">>, live(#{1 => Count + 1}, <<>>)) end},
        {load_rows, fun(Replica, Count) -> antientropy:load_rows(Replica, row(Count + 1)) end},
        {load_format, fun(Replica, Count) -> antientropy:load_format(Replica, 2, row(Count + 1)) end},
        {sync, fun(Replica, Count) -> sync(Replica, Count + 1) end}
    ],
    [{atom_to_list(Name), {timeout, 60, fun() -> kept_by(Call) end}} || {Name, Call} <- Calls].

kept_by(Call) ->
    Replica = replica(#{limit => 10}),
    ok = antientropy:keep_renewed(Replica),
    [{ok, _} = with_room(fun() -> Call(Replica, Count) end) || Count <- lists:seq(0, 99)],
    ?assertEqual({ok, [live(#{1 => 100}, <<>>)]}, antientropy:get(Replica, <<"k">>)),
    ?assertEqual(100, entries(Replica)).

context(0) -> [];
context(Count) -> [{1, Count}].

row(Counter) ->
    {ok, Row} = antientropy:row(partner(Counter), <<"k">>),
    Row.

partner(Counter) ->
    Partner = replica(),
    {ok, new} = antientropy:accept(Partner, <<"k">>, live(#{1 => Counter}, <<>>)),
    Partner.

%% Takes a partner's version. A renewal ends the exchange, which is then repeated.
sync(Replica, Counter) ->
    {ok, Snapshot} = antientropy:snapshot(partner(Counter)),
    {ok, Offer} = antientropy_snapshot:offer(Snapshot, 1),
    case antientropy:sync(Replica, 2, Offer, support:reach(Snapshot, 1)) of
        {ok, #{report := gone}} -> sync(Replica, Counter);
        Result -> Result
    end.

%% A journal that its rows fill is renewed some times, and then refuses puts.
rows_fill_the_journal_test() ->
    Replica = replica(#{limit => 100}),
    ok = antientropy:keep_renewed(Replica),
    fill(Replica, 100),
    ?assertEqual({error, journal_full}, antientropy:put(Replica, 1, <<"last">>, <<>>)),
    ?assertMatch({ok, #{entries := 100}}, antientropy:count(Replica)).

%% A replica whose journal is full already is renewed at once, and one that isn't kept isn't renewed.
kept_late_test() ->
    Replica = replica(#{limit => 10}),
    rewrite(Replica, 10),
    Put = fun() -> antientropy:put(Replica, 1, <<"k">>, <<>>, #{1 => 10}) end,
    ?assertEqual({error, journal_full}, Put()),
    timer:sleep(20),
    ?assertEqual({error, journal_full}, Put()),
    ok = antientropy:keep_renewed(Replica),
    until(fun() -> first(Replica) =:= 9 end),
    ?assertMatch({ok, #{counter := 11}}, Put()).

%% A kept replica is closed while processes put into it.
closed_test() ->
    Replica = replica(#{limit => 100}),
    ok = antientropy:keep_renewed(Replica),
    Writers = [async(fun() -> put_until_closed(Replica, Node, 0) end) || Node <- lists:seq(1, ?WRITERS)],
    timer:sleep(50),
    ok = antientropy:close(Replica),
    [?assertEqual({error, empty}, await(Writer)) || Writer <- Writers],
    ?assertEqual({error, empty}, antientropy:keep_renewed(Replica)),
    ?assertEqual({error, empty}, antientropy:renew_in_place(Replica)),
    ?assertEqual({error, empty}, antientropy:renewal(Replica, 100)).

put_until_closed(Replica, Node, Counter) ->
    case antientropy:put(Replica, Node, <<Node>>, <<>>, [{Node, Counter} || Counter > 0]) of
        {ok, #{counter := Next}} -> put_until_closed(Replica, Node, Next);
        {error, journal_full} -> put_until_closed(Replica, Node, Counter);
        Refused -> Refused
    end.

%% Puts one key until its counter has a value.
rewrite(Replica, Counter) ->
    {ok, Top} = antientropy:top_counter(Replica, 1, <<"k">>),
    [{ok, _} = put_next(Replica, Count) || Count <- lists:seq(Top, Counter - 1)].

put_next(Replica, Count) ->
    with_room(fun() -> antientropy:put(Replica, 1, <<"k">>, <<>>, context(Count)) end).

%% Repeats a call while the journal is full.
with_room(Call) ->
    case Call() of
        {error, journal_full} ->
            erlang:yield(),
            with_room(Call);
        Result ->
            Result
    end.

entries(Replica) ->
    {ok, #{entries := Entries}} = antientropy:about(Replica),
    Entries.

first(Replica) ->
    {ok, #{first := First}} = antientropy:count(Replica),
    First.

until(Condition) ->
    case Condition() of
        true ->
            ok;
        false ->
            timer:sleep(1),
            until(Condition)
    end.
