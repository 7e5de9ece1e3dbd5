%% Processes that wait in line for a handle, and hold no scheduler meanwhile.
%%
%% A process that was called has the gate until it makes its call: see support:hold/2. No result depends on time: the
%% tests at the end repeat an attempt that is over too soon.
-module(waiting_tests).

-include_lib("eunit/include/eunit.hrl").

-import(support, [replica/1, fill/2, key/1, hold/2, hold/3, release/1, in_line/1, async/1, await/1, is_called/1]).

%% Keys with large values: it takes some hundredths of a second to hash them.
-define(LARGE_KEYS, 300).
-define(LARGE_VALUE, binary:copy(<<"v">>, 65_536)).

waiting_test_() ->
    {foreach, fun setup/0, [
        fun(Replica) -> {timeout, 120, fun() -> Test(Replica) end} end
     || Test <- [
            fun in_order/1,
            fun reads_together/1,
            fun a_read_waits_behind_a_change/1,
            fun a_read_passes_when_nobody_waits/1,
            fun parts_pass_the_gate_of_their_replica/1,
            fun handles_have_their_gates/1,
            fun dead_waiters_are_passed_over/1,
            fun dead_readers_are_passed_over/1,
            fun killed_when_it_has_the_gate/1,
            fun killed_readers_that_have_the_gate/1,
            fun killed_when_it_was_called/1,
            fun long_calls_keep_their_turn/1,
            fun closed_meanwhile/1,
            fun no_message_is_left/1,
            fun a_call_has_its_share_of_a_turn/1
        ]
    ]}.

%% Replicas of format 1 have few nodes to hash.
setup() ->
    ok = lists:foreach(fun(Module) -> {module, Module} = code:ensure_loaded(Module) end, [
        antientropy, antientropy_call, antientropy_moment, antientropy_renewal, antientropy_exchange
    ]),
    small(3).

small(Keys) ->
    Replica = fill(replica(#{format => 1, limit => 100_000}), Keys),
    {ok, _} = antientropy:root(Replica),
    Replica.

put_in_line(Replica, Node) ->
    in_line(async(fun() -> antientropy:put(Replica, Node, <<"k">>, <<>>) end)).

%% Processes make their calls in their order in the line.
in_order(Replica) ->
    Holder = hold(Replica, change),
    Puts = [put_in_line(Replica, Node) || Node <- lists:seq(1, 20)],
    release(Holder),
    [{ok, _} = await(Put) || Put <- Puts],
    {ok, Entries} = antientropy:entries(Replica, 3),
    ?assertEqual([#{Node => 1} || Node <- lists:seq(1, 20)], [Clock || #{clock := Clock} <- Entries]).

reads_together(Replica) ->
    Holder = hold(Replica, change),
    Count = fun() -> antientropy:count(Replica) end,
    Readers = [in_line(async(fun() -> support:wait(Replica, read, Count) end)) || _ <- [1, 2]],
    Put = put_in_line(Replica, 1),
    ?assertEqual([false, false, false], [is_called(Each) || Each <- [Put | Readers]]),
    release(Holder),
    [true = support:until(fun() -> is_called(Reader) end) || Reader <- Readers],
    ?assertNot(is_called(Put)),
    release(hd(Readers)),
    ?assertNot(is_called(Put)),
    release(lists:last(Readers)),
    ?assertMatch({ok, _}, await(Put)).

%% Reads that follow don't delay a change.
a_read_waits_behind_a_change(Replica) ->
    Reader = hold(Replica, read),
    Put = put_in_line(Replica, 1),
    Get = in_line(async(fun() -> antientropy:get(Replica, <<"k">>) end)),
    release(Reader),
    ?assertMatch({ok, _}, await(Put)),
    ?assertMatch({ok, [_]}, await(Get)).

a_read_passes_when_nobody_waits(Replica) ->
    Reader = hold(Replica, read),
    ?assertEqual({ok, []}, antientropy:get(Replica, <<"k">>)),
    release(Reader).

parts_pass_the_gate_of_their_replica(Replica) ->
    {ok, Snapshot} = antientropy:snapshot(small(5)),
    {ok, Offer} = antientropy_snapshot:offer(Snapshot, 1),
    {ok, Exchange} = antientropy:exchange(Replica, 1, Offer, #{}),
    {ok, Renewal} = antientropy:renewal(Replica, 100),
    Holder = hold(Replica, read),
    Calls = [in_line(async(Call)) || Call <- [
        fun() -> antientropy_exchange:asks(Exchange) end,
        fun() -> antientropy_renewal:finish(Renewal) end,
        fun() -> antientropy_exchange:progress(Exchange) end
    ]],
    release(Holder),
    ?assertMatch([{ok, [_]}, ok, {ok, #{}}], [await(Call) || Call <- Calls]).

%% A snapshot, hints and slots have gates of their own.
handles_have_their_gates(Replica) ->
    {ok, Snapshot} = antientropy:snapshot(Replica),
    {ok, Hints} = antientropy_hints:new(),
    {ok, Slots} = antientropy_slots:new(1, 4, 1),
    Calls = [
        {Replica, fun() -> antientropy:count(Replica) end},
        {Snapshot, fun() -> antientropy_snapshot:root(Snapshot) end},
        {Hints, fun() -> antientropy_hints:count(Hints) end},
        {Slots, fun() -> antientropy_slots:count(Slots) end}
    ],
    [
        begin
            Holder = hold(Handle, change),
            Waiting = in_line(async(Call)),
            [{ok, _} = Other() || {Another, Other} <- Calls, Another =/= Handle],
            support:kill(Holder),
            {ok, _} = await(Waiting)
        end
     || {Handle, Call} <- Calls
    ].

dead_waiters_are_passed_over(Replica) ->
    Holder = hold(Replica, change),
    Puts = [put_in_line(Replica, Node) || Node <- lists:seq(1, 6)],
    [support:kill(Put) || Put <- lists:droplast(Puts)],
    release(Holder),
    ?assertMatch({ok, #{number := 3}}, await(lists:last(Puts))).

%% If the last process of the line is dead, the gate is free.
dead_readers_are_passed_over(Replica) ->
    Holder = hold(Replica, change),
    Gets = [in_line(async(fun() -> antientropy:get(Replica, <<"k">>) end)) || _ <- lists:seq(1, 6)],
    [support:kill(Get) || Get <- Gets],
    release(Holder),
    ?assert(is_free(Replica)).

killed_when_it_has_the_gate(Replica) ->
    Holder = hold(Replica, change),
    Put = put_in_line(Replica, 1),
    support:kill(Holder),
    ?assertMatch({ok, _}, await(Put)),
    support:kill(hold(Replica, change)),
    true = support:until(fun() -> is_free(Replica) end).

killed_readers_that_have_the_gate(Replica) ->
    Readers = [hold(Replica, read) || _ <- [1, 2, 3]],
    Put = put_in_line(Replica, 1),
    [support:kill(Reader) || Reader <- Readers],
    ?assertMatch({ok, _}, await(Put)).

%% A process is called, and killed before it runs again.
killed_when_it_was_called(Replica) ->
    Holder = hold(Replica, change),
    [First, Second] = [put_in_line(Replica, Node) || Node <- [1, 2]],
    true = erlang:suspend_process(element(1, First)),
    release(Holder),
    true = support:until(fun() -> is_called(First) end),
    ?assertNot(is_called(Second)),
    support:kill(First),
    ?assertMatch({ok, #{number := 3}}, await(Second)).

%% A call that turns out to be long begins again on a dirty scheduler. If it waits there, it is called there: it doesn't
%% wait once more.
long_calls_keep_their_turn(Replica) ->
    [{ok, _} = antientropy:put(Replica, Node, <<"k">>, <<>>) || Node <- lists:seq(2, 20)],
    Get = hold(Replica, long_read, fun() -> antientropy:get(Replica, <<"k">>) end),
    Put = put_in_line(Replica, 1),
    {ok, Versions} = release(Get),
    ?assertEqual(19, length(Versions)),
    ?assertMatch({ok, _}, await(Put)).

%% Calls that wait find the replica, or nothing.
closed_meanwhile(Replica) ->
    Holder = hold(Replica, change),
    Before = in_line(async(fun() -> antientropy:count(Replica) end)),
    Close = in_line(async(fun() -> antientropy:close(Replica) end)),
    After = in_line(async(fun() -> antientropy:count(Replica) end)),
    release(Holder),
    ?assertMatch({ok, #{entries := 3}}, await(Before)),
    ?assertEqual(ok, await(Close)),
    ?assertEqual({error, empty}, await(After)).

%% A process that has waited finds its mailbox unchanged.
no_message_is_left(Replica) ->
    Holder = hold(Replica, change),
    Get = in_line(async(fun() ->
        [self() ! Number || Number <- lists:seq(1, 1000)],
        {ok, _} = antientropy:get(Replica, <<"k">>),
        process_info(self(), messages)
    end)),
    release(Holder),
    ?assertEqual({messages, lists:seq(1, 1000)}, await(Get)).

%% A turn of a process on its scheduler is 4,000 reductions: at most 100 changes, or some 400 reads.
a_call_has_its_share_of_a_turn(Replica) ->
    ?assert(reductions(fun() -> {error, stale_context} = antientropy:put(Replica, 1, key(1), <<>>) end) >= 40_000),
    ?assert(reductions(fun() -> {ok, [_]} = antientropy:get(Replica, key(1)) end) >= 10_000).

%% Returns the reductions of a thousand calls.
reductions(Call) ->
    {reductions, Before} = process_info(self(), reductions),
    [Call() || _ <- lists:seq(1, 1000)],
    {reductions, After} = process_info(self(), reductions),
    After - Before.

is_free(Replica) ->
    case antientropy_nif:top_counter(Replica, 1, <<"k">>, 0) of
        {ok, 0} -> true;
        {wait, top_counter, _, _, _} -> false
    end.

%% A process that is killed in its call on a dirty scheduler is dead when the call leaves the gate. The call is made to
%% its end, and the next process is called.
killed_in_its_call_test_() ->
    {timeout, 120, fun() ->
        Replica = replica(#{limit => 100_000}),
        killed_in_its_call(Replica, 100),
        ?assert(is_free(Replica))
    end}.

%% If the call has ended before the process was killed, tries again.
killed_in_its_call(_, 0) ->
    error(no_process_was_killed_in_its_call);
killed_in_its_call(Replica, Times) ->
    put_large(Replica, 100 - Times),
    Rehash = async(fun() -> antientropy:rehash_some(Replica, 5000) end),
    true = support:until(fun() -> support:is_over(Rehash) orelse not is_free(Replica) end),
    Put = async(fun() -> antientropy:put(Replica, 1, <<"k">>, <<>>, context(100 - Times)) end),
    IsInLine = support:until(fun() -> support:is_in_line(Put) orelse support:is_over(Put) end)
        andalso support:is_in_line(Put),
    support:kill(Rehash),
    %% The put hasn't been called: the other process died before it left the gate.
    Killed = IsInLine andalso support:is_in_line(Put) andalso not is_called(Put),
    ?assertMatch({ok, _}, await(Put)),
    Killed orelse killed_in_its_call(Replica, Times - 1).

put_large(Replica, Counter) ->
    [
        {ok, _} = antientropy:put(Replica, 9, <<"large ", Number:16>>, ?LARGE_VALUE, [{9, Counter} || Counter > 0])
     || Number <- lists:seq(1, ?LARGE_KEYS)
    ].

context(0) -> [];
context(Counter) -> [{1, Counter}].

%% While fifty processes wait with calls of all kinds, others use each kind of scheduler.
strangers_test_() ->
    {timeout, 120, fun() ->
        Replica = setup(),
        Other = small(100),
        Holder = hold(Replica, change),
        Callers = [in_line(async(call(Kind, Replica))) || Number <- lists:seq(1, 50), Kind <- [Number rem 10]],
        {ok, _} = file:read_file("README.md"),
        {ok, _} = antientropy:root(Other),
        {ok, _} = antientropy:bytes(Other),
        ok = antientropy:rehash(Other),
        ok = antientropy:renew_in_place(Other),
        ?assertEqual(150_000, length(large_heap())),
        ?assertEqual([], [Caller || Caller <- Callers, not support:is_in_line(Caller)]),
        release(Holder),
        [?assertNotMatch({error, _}, await(Caller)) || Caller <- Callers]
    end}.

call(0, Replica) -> fun() -> antientropy:get(Replica, <<"k">>) end;
call(1, Replica) -> fun() -> antientropy:accept(Replica, <<"k">>, support:live(#{1 => 1}, <<>>)) end;
call(2, Replica) -> fun() -> antientropy:snapshot(Replica) end;
call(3, Replica) -> fun() -> antientropy:bytes(Replica) end;
call(4, Replica) -> fun() -> antientropy:rehash(Replica) end;
call(5, Replica) -> fun() -> antientropy:renewal(Replica, 1000) end;
call(6, Replica) -> fun() -> antientropy:top_counter(Replica, 1, <<"k">>) end;
call(7, Replica) -> fun() -> antientropy:hash_moment(Replica, 100) end;
call(8, Replica) -> fun() -> antientropy:packed_entries(Replica, 0) end;
call(9, Replica) -> fun() -> antientropy:drop_sessions(Replica) end.

%% A large heap is collected on a dirty scheduler.
large_heap() ->
    List = lists:seq(1, 150_000),
    true = garbage_collect(),
    List.

%% Fifty processes read and put while the replica is renewed. A stranger's reads of a file end meanwhile.
beside_a_renewal_test_() ->
    {timeout, 120, fun() ->
        Replica = fill(replica(#{limit => 1_000_000}), 30_000),
        Callers = [async(fun() -> until_stopped(caller(Node, Replica), 0) end) || Node <- lists:seq(2, 51)],
        read_beside_a_renewal(Replica),
        [?assert(support:stop(Caller) > 0) || Caller <- Callers]
    end}.

%% Renews the replica until a read of a file has ended meanwhile.
read_beside_a_renewal(Replica) ->
    Renewing = async(fun() -> antientropy:renew_in_place(Replica, 1_000_000) end),
    Reads = reads_during(Renewing, 0),
    ?assertEqual(ok, await(Renewing)),
    Reads > 0 orelse read_beside_a_renewal(Replica).

caller(Node, Replica) when Node rem 2 =:= 0 ->
    fun(Count) -> {ok, [_]} = antientropy:get(Replica, key(1 + Count rem 1000)) end;
caller(Node, Replica) ->
    fun(Count) ->
        {ok, _} = antientropy:put(Replica, Node, <<"of ", Node>>, <<>>, [{Node, Count} || Count > 0]),
        timer:sleep(1)
    end.

until_stopped(Call, Count) ->
    Call(Count),
    receive
        stop -> Count + 1
    after 0 -> until_stopped(Call, Count + 1)
    end.

reads_during(Call, Count) ->
    {ok, _} = file:read_file("README.md"),
    case support:is_over(Call) of
        true -> Count;
        false -> reads_during(Call, Count + 1)
    end.

%% Processes that are killed in calls leave no gate taken, no session and no renewal.
many_are_killed_test_() ->
    {timeout, 600, fun() ->
        Replica = small(200),
        ok = antientropy:keep_renewed(Replica),
        {ok, Snapshot} = antientropy:snapshot(small(400)),
        {ok, Offer} = antientropy_snapshot:offer(Snapshot, 1),
        [kill_some(Round, Replica, Snapshot, Offer) || Round <- lists:seq(1, 150)],
        % (a call of a killed process may still be at work on a dirty scheduler)
        true = support:until(fun() ->
            ok = antientropy:drop_sessions(Replica),
            {ok, #{sessions := Sessions}} = antientropy:count(Replica),
            Sessions =:= 0
        end),
        {ok, _} = antientropy:root(Replica),
        ok = antientropy:renew_in_place(Replica),
        {ok, [_]} = antientropy_snapshot:keys(Snapshot, place(key(1))),
        true = support:until(fun() -> is_free(Replica) andalso is_free(Replica) end)
    end}.

place(Key) ->
    {ok, #{leaf := Leaf}} = antientropy:place(1, 0, Key),
    Leaf.

kill_some(Round, Replica, Snapshot, Offer) ->
    Killed = [async(fun() -> forever(Number rem 6, Replica, Snapshot, Offer) end) || Number <- lists:seq(1, 50)],
    timer:sleep(Round rem 4),
    [support:kill(Each) || Each <- Killed].

forever(Kind, Replica, Snapshot, Offer) ->
    _ = many(Kind, Replica, Snapshot, Offer),
    forever(Kind, Replica, Snapshot, Offer).

many(0, Replica, _, _) ->
    antientropy:put(Replica, rand:uniform(60_000), key(rand:uniform(200)), <<>>);
many(1, Replica, _, _) ->
    antientropy:get(Replica, key(1));
many(2, Replica, _, _) ->
    {ok, Snapshot} = antientropy:snapshot(Replica),
    antientropy_snapshot:rows(Snapshot, 1);
many(3, Replica, Snapshot, Offer) ->
    antientropy:sync(Replica, 1, Offer, support:reach(Snapshot, 1));
many(4, Replica, _, _) ->
    antientropy:renew_in_place(Replica, 100_000);
many(5, Replica, _, Offer) ->
    antientropy:exchange(Replica, 1, Offer, #{}).
