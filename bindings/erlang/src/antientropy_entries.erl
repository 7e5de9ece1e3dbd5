%% @private
%% @doc The entries of a journal, which the library returns packed, many at once (docs/FORMATS.md).
-module(antientropy_entries).

-export([fold/4, unpack/1]).

-import(antientropy_call, [result/1]).

%% @doc Folds over the entries from a number on: programs call {@link antientropy:fold_entries/4}.
-spec fold(fun((antientropy:entry(), Acc) -> Acc), Acc, antientropy:replica(), From :: non_neg_integer()) ->
    {ok, Acc} | antientropy:refused().
fold(Fun, Acc, Replica, From) ->
    case result(antientropy_nif:packed_entries(Replica, From)) of
        {ok, #{next := From}} -> {ok, Acc};
        {ok, #{next := Next} = Packed} -> fold(Fun, fold_packed(Fun, Acc, Packed), Replica, Next);
        Refused -> Refused
    end.

%% @doc Returns the entries of packed ones: programs call {@link antientropy:unpack_entries/1}.
-spec unpack(antientropy:packed()) -> [antientropy:entry()].
unpack(Packed) ->
    lists:reverse(fold_packed(fun(Entry, Entries) -> [Entry | Entries] end, [], Packed)).

fold_packed(Fun, Acc, #{format := Format, from := From, bytes := Bytes}) ->
    fold_bytes(Fun, Acc, From, kind_bits(Format), Bytes);
fold_packed(_, _, _) ->
    error(badarg).

%% Entries of format 1 have no kind, and are live.
kind_bits(1) -> 0;
kind_bits(2) -> 8;
kind_bits(_) -> error(badarg).

%% Keys and values are copied, since a part of the bytes would keep all of them.
fold_bytes(Fun, Acc, Number, KindBits, Bytes) ->
    case Bytes of
        <<Source, KeyLen:16, Key:KeyLen/binary, 1:16, Kind:KindBits, Pairs, Clock:Pairs/binary-unit:80, ValueLen:32,
            Value:ValueLen/binary, Rest/binary>> ->
            Entry = #{
                number => Number,
                key => binary:copy(Key),
                clock => clock(Clock, #{}),
                value => value(Kind, Value),
                source => source(Source)
            },
            fold_bytes(Fun, Fun(Entry, Acc), Number + 1, KindBits, Rest);
        <<>> ->
            Acc;
        _ ->
            error(badarg)
    end.

clock(<<Node:16, Counter:64, Pairs/binary>>, Clock) -> clock(Pairs, Clock#{Node => Counter});
clock(<<>>, Clock) -> Clock.

value(0, Value) -> binary:copy(Value);
value(1, <<>>) -> tombstone;
value(_, _) -> error(badarg).

source(0) -> put;
source(1) -> copy;
source(2) -> hint;
source(3) -> partner;
source(Other) -> Other.
