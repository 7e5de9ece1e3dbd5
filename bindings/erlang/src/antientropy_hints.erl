%% @doc Hints: versions that a node carries for replicas that are down.
%%
%% A hint belongs to no range, and its number never names another one.
-module(antientropy_hints).

-export([new/0, restore/1, close/1, keep/4, next/3, hint/2, pending/2, fold/4, confirm/3, renew/1, count/1, bytes/1]).

-import(antientropy_call, [result/1]).

-export_type([hints/0, hint/0]).

-opaque hints() :: reference().
-type hint() :: #{
    number := pos_integer(),
    owner := pos_integer(),
    key := binary(),
    clock := antientropy:clock(),
    value := antientropy:value()
}.

%% @doc Makes an empty store of hints. The first hint gets the number 1.
-spec new() -> {ok, hints()} | antientropy:refused().
new() ->
    result(antientropy_nif:hints_new()).

%% @doc Makes an empty store of hints, after a restart. The first hint gets the number `First'.
%%
%% It must be above all numbers in the program's log: hints that are kept again get new numbers, which are logged, and
%% no old number names another hint. Refused: `unknown_hint' (it is 0).
-spec restore(First :: non_neg_integer()) -> {ok, hints()} | antientropy:refused().
restore(First) ->
    result(antientropy_nif:hints_restore(First)).

%% @doc Frees the memory. Later calls are refused as `empty'.
-spec close(hints()) -> ok.
close(Hints) ->
    result(antientropy_nif:hints_close(Hints)).

%% @doc Keeps a version for its owner, a node that is down. Returns the number of the hint: one more than the last.
%%
%% Refused: `bad_clock' (also if the owner is 0 or over 65,535), `clock_full', `bad_key', `bad_value', `hints_full'.
-spec keep(hints(), Owner :: non_neg_integer(), Key :: binary(), antientropy:version_like()) ->
    {ok, Number :: pos_integer()} | antientropy:refused().
keep(Hints, Owner, Key, Version) ->
    result(antientropy_nif:hint_keep(Hints, Owner, Key, Version)).

%% @doc Returns the number of the owner's first pending hint over `After': 0 gives the first. Refused: `no_version'.
-spec next(hints(), Owner :: non_neg_integer(), After :: non_neg_integer()) ->
    {ok, Number :: pos_integer()} | antientropy:refused().
next(Hints, Owner, After) ->
    result(antientropy_nif:hint_next(Hints, Owner, After)).

%% @doc Returns a hint, pending or delivered. Refused: `no_version'.
-spec hint(hints(), Number :: non_neg_integer()) -> {ok, hint()} | antientropy:refused().
hint(Hints, Number) ->
    result(antientropy_nif:hint(Hints, Number)).

%% @doc Returns the pending hints of an owner in order.
-spec pending(hints(), Owner :: non_neg_integer()) -> {ok, [hint()]} | antientropy:refused().
pending(Hints, Owner) ->
    case fold(fun(Hint, Found) -> [Hint | Found] end, [], Hints, Owner) of
        {ok, Found} -> {ok, lists:reverse(Found)};
        Refused -> Refused
    end.

%% @doc Folds over the pending hints of an owner in order. The function may confirm them.
%%
%% A renewal meanwhile gives the pending ones new numbers, so the fold visits them once more.
-spec fold(fun((hint(), Acc) -> Acc), Acc, hints(), Owner :: non_neg_integer()) -> {ok, Acc} | antientropy:refused().
fold(Fun, Acc, Hints, Owner) ->
    fold_after(Fun, Acc, Hints, Owner, 0).

fold_after(Fun, Acc, Hints, Owner, After) ->
    case next(Hints, Owner, After) of
        {ok, Number} ->
            case hint(Hints, Number) of
                {ok, Hint} -> fold_after(Fun, Fun(Hint, Acc), Hints, Owner, Number);
                Refused -> Refused
            end;
        {error, no_version} ->
            {ok, Acc};
        Refused ->
            Refused
    end.

%% @doc Ends the wait of a pending hint, after its owner has the version on its disk. Refused: `unknown_hint'.
%%
%% The outcome is the result of the owner's {@link antientropy:accept/3}.
-spec confirm(hints(), Number :: non_neg_integer(), Outcome :: new | known) -> ok | antientropy:refused().
confirm(Hints, Number, Outcome) ->
    result(antientropy_nif:hint_confirm(Hints, Number, Outcome)).

%% @doc Drops the delivered hints. The pending ones get new numbers, above every number that was used, in order.
%%
%% The old numbers name no hint any more. Refused: `hints_full' (a number would be over 2^64 - 1).
-spec renew(hints()) -> ok | antientropy:refused().
renew(Hints) ->
    result(antientropy_nif:hints_renew(Hints)).

%% @doc Returns the counts of pending and of delivered hints.
-spec count(hints()) -> {ok, Counts} | antientropy:refused() when
    Counts :: #{pending := non_neg_integer(), delivered := non_neg_integer()}.
count(Hints) ->
    result(antientropy_nif:hints_count(Hints)).

%% @doc Returns the size in bytes of all hints, also of those that are delivered: their keys, values and clocks, 10
%% bytes for each pair of a clock.
-spec bytes(hints()) -> {ok, Bytes :: non_neg_integer()} | antientropy:refused().
bytes(Hints) ->
    result(antientropy_nif:hints_bytes(Hints)).
