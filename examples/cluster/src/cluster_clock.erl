%% @doc Clocks as text: `7:3,9:1' for people, and opaque contexts for clients, which send them back.
%%
%% A context is signed for its key with the cookie, which all nodes of the cluster know and nobody else. Otherwise a
%% client that invents a context, or uses another key's, could name counters that were never used.
-module(cluster_clock).

-export([text/1, context/2, read_context/2, are_lives/1]).

-define(PAIR, Node:16, Counter:64).
-define(SUM_BYTES, 16).

%% @doc Returns a clock as text: each number with its counter.
-spec text(antientropy:clock()) -> iodata().
text(Clock) ->
    lists:join(",", [io_lib:format("~b:~b", [Node, Counter]) || {Node, Counter} <- lists:sort(maps:to_list(Clock))]).

%% @doc Returns a clock as a context of a key.
-spec context(Key :: binary(), antientropy:clock()) -> binary().
context(Key, Clock) ->
    Pairs = <<<<?PAIR>> || {Node, Counter} <- lists:sort(maps:to_list(Clock))>>,
    base64:encode(<<(sum(Key, Pairs))/binary, Pairs/binary>>).

%% @doc Returns the clock of a context of a key. An empty text is the context of a client that has read nothing.
%% Refused: `bad_context'. The library judges the pairs.
-spec read_context(Key :: binary(), string() | binary()) ->
    {ok, [{non_neg_integer(), non_neg_integer()}]} | {error, bad_context}.
read_context(_, "") ->
    {ok, []};
read_context(Key, Text) ->
    try base64:decode(Text) of
        <<Sum:?SUM_BYTES/binary, Pairs/binary>> when byte_size(Pairs) rem 10 =:= 0 ->
            checked(crypto:hash_equals(Sum, sum(Key, Pairs)), [{Node, Counter} || <<?PAIR>> <= Pairs]);
        _ ->
            {error, bad_context}
    catch
        error:_ -> {error, bad_context}
    end.

checked(true, Clock) -> {ok, Clock};
checked(false, _) -> {error, bad_context}.

sum(Key, Pairs) ->
    Secret = atom_to_binary(erlang:get_cookie()),
    crypto:macN(hmac, sha256, Secret, [<<"context", (byte_size(Key)):32>>, Key, Pairs], ?SUM_BYTES).

%% @doc Returns true if each number in a clock is a life that a place of the ring may have.
-spec are_lives(antientropy:clock_like()) -> boolean().
are_lives(Clock) when is_map(Clock) -> are_lives(maps:to_list(Clock));
are_lives(Pairs) -> lists:all(fun({Number, _}) -> is_life(Number) end, Pairs).

is_life(Number) ->
    Incarnation = cluster_lives:incarnation(Number),
    IsOne = Incarnation >= 1 andalso Incarnation =< cluster_lives:greatest(),
    IsOne andalso lists:member(cluster_lives:place(Number), cluster_settings:places()).
