%% @doc Functions that several tests use.
-module(support).

-include_lib("eunit/include/eunit.hrl").

-export([replica/0, replica/1, reach/2, sync/2, crowd/2, live/2, fill/2, key/1]).
-export([state/1, refused/3, refused/2, badarg/1, flip/2, hex/1]).
-export([async/1, await/1, stop/1, kill/1, is_over/1, until/1]).
-export([hold/2, hold/3, wait/3, release/1, in_line/1, is_in_line/1, is_called/1]).

%% @doc Makes a replica with a journal of 10,000 entries.
replica() ->
    replica(#{limit => 10_000}).

%% @doc Makes a replica.
replica(Options) ->
    {ok, Replica} = antientropy:new(Options),
    Replica.

%% @doc Returns a function that reaches a partner, whose snapshot is called directly.
reach(Snapshot, Number) ->
    fun(Asks) -> [antientropy_snapshot:serve(Snapshot, Number, Ask) || Ask <- Asks] end.

%% @doc Syncs a replica from a partner.
sync(Replica, Partner) ->
    {ok, Snapshot} = antientropy:snapshot(Partner),
    {ok, Offer} = antientropy_snapshot:offer(Snapshot, 1),
    {ok, Synced} = antientropy:sync(Replica, 9, Offer, reach(Snapshot, 1)),
    ok = antientropy_snapshot:close(Snapshot),
    Synced.

%% @doc Fills a key with 64 concurrent versions.
crowd(Replica, Key) ->
    [{ok, new} = antientropy:accept(Replica, Key, live(#{Node => 1}, <<Node>>)) || Node <- lists:seq(1, 64)],
    ok.

%% @doc Returns a version.
live(Clock, Value) ->
    #{clock => Clock, value => Value}.

%% @doc Puts `Count` keys at node 1.
fill(Replica, Count) ->
    [{ok, _} = antientropy:put(Replica, 1, key(Number), <<"value">>) || Number <- lists:seq(1, Count)],
    Replica.

%% @doc Returns the key of a number.
key(Number) ->
    <<"key ", (integer_to_binary(Number))/binary>>.

%% @doc Returns all that a replica holds.
state(Replica) ->
    {ok, Keys} = antientropy:keys(Replica),
    {ok, #{first := First} = Counts} = antientropy:count(Replica),
    {ok, Entries} = antientropy:entries(Replica, First),
    {Counts, Entries, [antientropy:row(Replica, Key) || Key <- Keys]}.

%% @doc A call is refused by a cause, and leaves a replica unchanged.
refused(Name, Replica, Call) ->
    Before = state(Replica),
    refused(Name, Call),
    ?assertEqual(Before, state(Replica)).

%% @doc A call is refused by a cause.
refused(Name, Call) ->
    ?assertEqual({error, Name}, Call()).

%% @doc A call gets an argument of a wrong type.
badarg(Call) ->
    ?assertError(badarg, Call()).

%% @doc Returns bytes with another one at a place, counted from 0.
flip(Bytes, Place) ->
    <<Before:Place/binary, Byte, After/binary>> = Bytes,
    <<Before/binary, (Byte bxor 16#10), After/binary>>.

%% @doc Returns bytes in hexadecimal digits.
hex(Bytes) ->
    string:lowercase(binary:encode_hex(Bytes)).

%% ---- calls in other processes

%% @doc Makes a call in another process.
async(Call) ->
    spawn_monitor(fun() -> exit({result, Call()}) end).

%% @doc Returns the result of a call.
await({Process, Monitor}) ->
    receive
        {'DOWN', Monitor, process, Process, {result, Result}} -> Result;
        {'DOWN', Monitor, process, Process, Why} -> error(Why)
    end.

%% @doc Stops a process, and returns its result.
stop({Process, _} = Call) ->
    Process ! stop,
    await(Call).

%% @doc Kills a process, and waits until it is dead.
kill({Process, Monitor}) ->
    exit(Process, kill),
    receive
        {'DOWN', Monitor, process, Process, _} -> ok
    end.

%% @doc Returns true if a call has ended.
is_over({Process, _}) ->
    not is_process_alive(Process).

%% @doc Waits until a condition holds. Returns false if it doesn't within two minutes.
until(Condition) ->
    until(Condition, 120_000).

until(_, 0) ->
    false;
until(Condition, Millis) ->
    Condition() orelse begin
        timer:sleep(1),
        until(Condition, Millis - 1)
    end.

%% ---- gates

%% @doc Starts a process that takes the gate of a replica, for a `change' or a `read', and keeps it until it is
%% released.
hold(Replica, change) ->
    hold(Replica, change, fun() -> antientropy:drop_moment(Replica) end);
hold(Replica, read) ->
    hold(Replica, read, fun() -> antientropy:count(Replica) end).

%% @doc Starts a process that takes the gate of a handle for a call, which it makes when it is released. The gate is its
%% own because it was called.
hold(Handle, Use, Call) ->
    Holder = async(fun() -> wait(Handle, Use, Call) end),
    true = until(fun() -> is_called(Holder) end),
    Holder.

%% @doc Waits in the line of a handle's gate, and makes a call when this process is released.
wait(Handle, Use, Call) ->
    ok = antientropy_nif:wait(Handle, Use =/= change, Use =:= long_read, make_ref()),
    receive
        release -> Call()
    end.

%% @doc Lets a process that has a gate make its call, and returns the result.
release({Process, _} = Holder) ->
    Process ! release,
    await(Holder).

%% @doc Waits until a process is in a line, and returns it.
in_line(Call) ->
    true = until(fun() -> is_in_line(Call) end),
    Call.

%% @doc Returns true if a process waits in a line, or keeps the gate.
is_in_line({Process, _}) ->
    case process_info(Process, [current_function, status]) of
        [{current_function, {Module, wait, _}}, {status, waiting}] -> lists:member(Module, [antientropy_call, ?MODULE]);
        _ -> false
    end.

%% @doc Returns true if a process has its message, that it may enter.
is_called({Process, _}) ->
    case process_info(Process, messages) of
        {messages, Messages} -> lists:any(fun is_reference/1, Messages);
        undefined -> false
    end.
