#!/usr/bin/env escript
%%! +S 1:1
%% Measures the puts and gets of one process. The words are the number of keys, and the format: 1 or 2. Without words,
%% that is 100000 1. Keys have 10 bytes and values 32. Prints a line of JSON: `puts_per_s' and `gets_per_s' by the clock
%% on the wall, and `put_ns' and `get_ns', nanoseconds of processor time a call. ERL_LIBS is the folder that has the
%% application.
-mode(compile).

main([]) -> main(["100000"]);
main([Keys]) -> main([Keys, "1"]);
main([KeysWord, Format]) ->
    Keys = list_to_integer(KeysWord),
    Items = [{item_key(Number), item_value(Number)} || Number <- lists:seq(1, Keys)],
    {ok, Replica} = antientropy:new(#{format => list_to_integer(Format)}),
    {Puts, PutMillis} = measured(fun() -> put_all(Replica, Items) end),
    {Gets, GetMillis} = measured(fun() -> get_all(Replica, Items) end),
    ok = antientropy:close(Replica),
    io:format("{\"keys\":~b,\"format\":~s,\"puts_per_s\":~b,\"gets_per_s\":~b,\"put_ns\":~b,\"get_ns\":~b}~n", [
        Keys, Format, Keys * 1_000_000 div Puts, Keys * 1_000_000 div Gets,
        PutMillis * 1_000_000 div Keys, GetMillis * 1_000_000 div Keys
    ]).

%% Makes a call, and returns its microseconds, and its milliseconds of processor time.
measured(Call) ->
    {Before, _} = statistics(runtime),
    {Micros, ok} = timer:tc(Call),
    {After, _} = statistics(runtime),
    {max(1, Micros), After - Before}.

put_all(_, []) ->
    ok;
put_all(Replica, [{Key, Value} | Items]) ->
    {ok, _} = antientropy:put(Replica, 1, Key, Value),
    put_all(Replica, Items).

get_all(_, []) ->
    ok;
get_all(Replica, [{Key, Value} | Items]) ->
    {ok, [#{value := Value}]} = antientropy:get(Replica, Key),
    get_all(Replica, Items).

item_key(Number) ->
    iolist_to_binary(io_lib:format("key-~6.16.0b", [Number])).

%% Bytes that differ for each number.
item_value(Number) ->
    <<(erlang:phash2(Number, 1 bsl 32)):32, (Number * 16#9e3779b97f4a7c15):224>>.
