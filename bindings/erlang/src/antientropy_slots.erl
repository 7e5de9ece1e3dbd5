%% @doc Slots for background work, which backs off when the foreground is slow.
-module(antientropy_slots).

-export([new/3, close/1, lend/1, give_back/1, lent/2, sample/3, adjust/2, set_target/2, count/1]).

-import(antientropy_call, [result/1]).

-export_type([slots/0]).

-opaque slots() :: reference().

%% @doc Makes slots. Their target stays from the floor to the ceiling, and begins at the ceiling.
%%
%% It falls if the latency of the foreground is above the threshold, in microseconds. Refused: `bad_ring'.
-spec new(Floor :: non_neg_integer(), Ceiling :: non_neg_integer(), ThresholdMicros :: non_neg_integer()) ->
    {ok, slots()} | antientropy:refused().
new(Floor, Ceiling, ThresholdMicros) ->
    result(antientropy_nif:slots_new(Floor, Ceiling, ThresholdMicros)).

%% @doc Frees the memory. Later calls are refused as `empty'.
-spec close(slots()) -> ok.
close(Slots) ->
    result(antientropy_nif:slots_close(Slots)).

%% @doc Lends a slot, before background work. Refused: `no_slot' (the slots lent reach the target).
-spec lend(slots()) -> ok | antientropy:refused().
lend(Slots) ->
    result(antientropy_nif:slot_lend(Slots)).

%% @doc Gives a slot back, after background work. Refused: `no_slot' (none is lent).
-spec give_back(slots()) -> ok | antientropy:refused().
give_back(Slots) ->
    result(antientropy_nif:slot_give_back(Slots)).

%% @doc Lends a slot for the time of a function, and returns its result. Refused: `no_slot'.
%%
%% A process that is killed in the function doesn't give its slot back.
-spec lent(slots(), fun(() -> Result)) -> {ok, Result} | antientropy:refused().
lent(Slots, Fun) ->
    case lend(Slots) of
        ok ->
            try
                {ok, Fun()}
            after
                give_back(Slots)
            end;
        Refused ->
            Refused
    end.

%% @doc Takes the latency of a reply in microseconds, with its moment in milliseconds. Refused: `clock_back'.
-spec sample(slots(), MomentMillis :: non_neg_integer(), Micros :: non_neg_integer()) -> ok | antientropy:refused().
sample(Slots, MomentMillis, Micros) ->
    result(antientropy_nif:slots_sample(Slots, MomentMillis, Micros)).

%% @doc Sets the target by the samples of the last minute. Returns their 99th percentile in microseconds.
%%
%% Without samples it returns `none', and the target is left unchanged. Refused: `clock_back'.
-spec adjust(slots(), NowMillis :: non_neg_integer()) ->
    {ok, Micros :: non_neg_integer() | none} | antientropy:refused().
adjust(Slots, NowMillis) ->
    result(antientropy_nif:slots_adjust(Slots, NowMillis)).

%% @doc Sets the target. Slots that are lent stay lent. Refused: `bad_ring'.
-spec set_target(slots(), Target :: non_neg_integer()) -> ok | antientropy:refused().
set_target(Slots, Target) ->
    result(antientropy_nif:slots_set_target(Slots, Target)).

%% @doc Returns the target, and the counts of slots that are lent and free.
-spec count(slots()) -> {ok, Counts} | antientropy:refused() when
    Counts :: #{target := pos_integer(), lent := non_neg_integer(), free := non_neg_integer()}.
count(Slots) ->
    result(antientropy_nif:slots_count(Slots)).
