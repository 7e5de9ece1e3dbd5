%% @doc The hints for one owner and one range, in the order of their arrival.
%%
%% A store of the library takes 10,000 pending hints. A queue takes hints up to a limit in bytes, so it has a list of
%% stores. The last store takes new hints, and its numbers continue after those before.
-module(cluster_hint_queue).

-export([new/2, keep/4, confirm/2, pending/3, kept/1, renewed/1, counts/1, close/1]).

-export_type([queue/0, outcome/0, kept/0, counts/0]).

-type outcome() :: {Number :: pos_integer(), new | known}.
-type kept() :: {Key :: binary(), antientropy:version()}.
-type counts() :: #{pending := non_neg_integer(), delivered := non_neg_integer(), bytes := non_neg_integer()}.
%% `bytes' is the space that the pending hints take in a log.

-record(queue, {
    owner :: cluster_ring:place(),
    %% The stores, with the last one first, each with the number of its first hint.
    stores :: [{First :: pos_integer(), antientropy_hints:hints()}],
    next :: pos_integer(),
    counts = #{pending => 0, delivered => 0, bytes => 0} :: counts()
}).

-opaque queue() :: #queue{}.

%% @doc Makes an empty queue, whose first hint gets this number.
-spec new(Owner :: cluster_ring:place(), First :: pos_integer()) -> queue().
new(Owner, First) ->
    with_store(#queue{owner = Owner, stores = [], next = First}).

with_store(#queue{stores = Stores, next = Next} = Queue) ->
    {ok, Hints} = antientropy_hints:restore(Next),
    Queue#queue{stores = [{Next, Hints} | Stores]}.

%% @doc Keeps a version, and returns the number of its hint. Refused: `hints_full' (the pending hints would have more
%% than `Most' bytes), `bad_clock', `clock_full', `bad_key', `bad_value'.
-spec keep(queue(), Key :: binary(), antientropy:version(), Most :: non_neg_integer() | infinity) ->
    {ok, Number :: pos_integer(), queue()} | antientropy:refused().
keep(#queue{counts = #{bytes := Bytes}} = Queue, Key, Version, Most) ->
    case Bytes + bytes(Key, Version) =< Most of
        true -> keep_in_last(Queue, Key, Version);
        false -> {error, hints_full}
    end.

keep_in_last(#queue{owner = Owner, stores = [{_, Last} | _]} = Queue, Key, Version) ->
    case antientropy_hints:keep(Last, Owner, Key, Version) of
        {error, hints_full} -> keep_in(with_store(Queue), Key, Version);
        Kept -> counted(Kept, Queue, Key, Version)
    end.

keep_in(#queue{owner = Owner, stores = [{_, Last} | _]} = Queue, Key, Version) ->
    counted(antientropy_hints:keep(Last, Owner, Key, Version), Queue, Key, Version).

counted({ok, Number}, #queue{counts = #{pending := Pending, bytes := Bytes} = Counts} = Queue, Key, Version) ->
    More = Counts#{pending := Pending + 1, bytes := Bytes + bytes(Key, Version)},
    {ok, Number, Queue#queue{next = Number + 1, counts = More}};
counted(Refused, _, _, _) ->
    Refused.

%% @doc Confirms a hint, which is pending no longer. Refused: `unknown_hint'.
-spec confirm(queue(), outcome()) -> {ok, queue()} | antientropy:refused().
confirm(#queue{stores = Stores, counts = Counts} = Queue, {Number, Outcome}) ->
    case [Hints || {First, Hints} <- Stores, First =< Number] of
        [Hints | _] ->
            case antientropy_hints:confirm(Hints, Number, Outcome) of
                ok -> {ok, Queue#queue{counts = without(Counts, antientropy_hints:hint(Hints, Number))}};
                Refused -> Refused
            end;
        [] ->
            {error, unknown_hint}
    end.

without(#{pending := Pending, delivered := Delivered, bytes := Bytes}, {ok, Hint}) ->
    {Key, Version} = key_and_version(Hint),
    #{pending => Pending - 1, delivered => Delivered + 1, bytes => Bytes - bytes(Key, Version)}.

%% @doc Returns the first pending hints after a number, at most `Most'.
-spec pending(queue(), After :: non_neg_integer(), Most :: non_neg_integer() | infinity) -> [antientropy_hints:hint()].
pending(#queue{owner = Owner, stores = Stores}, After, Most) ->
    pending(lists:reverse(Stores), Owner, After, Most).

pending([{_, Hints} | Stores], Owner, After, Most) when Most > 0 ->
    case antientropy_hints:next(Hints, Owner, After) of
        {ok, Number} ->
            {ok, Hint} = antientropy_hints:hint(Hints, Number),
            [Hint | pending([{Number, Hints} | Stores], Owner, Number, less(Most))];
        {error, no_version} ->
            pending(Stores, Owner, After, Most)
    end;
pending(_, _, _, _) ->
    [].

less(infinity) -> infinity;
less(Most) -> Most - 1.

%% @doc Returns all pending hints without their numbers, and the number of the first if all are kept again in order.
-spec kept(queue()) -> {First :: pos_integer(), [kept()]}.
kept(#queue{next = Next} = Queue) ->
    {Next, [key_and_version(Hint) || Hint <- pending(Queue, 0, infinity)]}.

key_and_version(#{key := Key, clock := Clock, value := Value}) ->
    {Key, #{clock => Clock, value => Value}}.

%% @doc Returns a queue with only the pending hints, and frees this one. They get new numbers, above all used ones.
-spec renewed(queue()) -> queue().
renewed(#queue{owner = Owner} = Queue) ->
    {First, Kept} = kept(Queue),
    ok = close(Queue),
    Keep = fun({Key, Version}, Before) ->
        {ok, _, Next} = keep(Before, Key, Version, infinity),
        Next
    end,
    lists:foldl(Keep, new(Owner, First), Kept).

%% @doc Returns the counts of pending and of delivered hints.
-spec counts(queue()) -> counts().
counts(#queue{counts = Counts}) ->
    Counts.

%% @doc Frees the memory.
-spec close(queue()) -> ok.
close(#queue{stores = Stores}) ->
    lists:foreach(fun({_, Hints}) -> ok = antientropy_hints:close(Hints) end, Stores).

%% The bytes that a hint takes in a log.
bytes(Key, #{clock := Clock, value := Value}) ->
    erlang:external_size({Key, Clock, Value}).
