%% @doc The records of a log file. A record is
%%
%%     place     8 bytes, the number of records that were ever logged in the folder before it
%%     length    4 bytes, the length of `bytes'
%%     checksum  4 bytes, crc32 over place, length and bytes
%%     bytes     a list of terms, by `term_to_binary'
%%
%% Numbers are big-endian. A file has nothing else.
-module(cluster_records).

-export([encode/2, terms/1, fold/4]).

-export_type([place/0, tail/0]).

-define(HEAD_LEN, 16).

-type place() :: non_neg_integer().
-type tail() :: none | torn | damaged.
%% The rest after the last whole record: nothing; a record that a crash may have cut off, since no whole record of a
%% later place begins at any byte behind it; or anything else.

%% @doc Returns the bytes of a record.
-spec encode(place(), [term()]) -> binary().
encode(Place, Terms) ->
    Bytes = term_to_binary(Terms),
    Length = byte_size(Bytes),
    true = Length < 1 bsl 32,
    <<Place:64, Length:32, (sum(Place, Length, Bytes)):32, Bytes/binary>>.

%% @doc Returns the terms of a record's bytes.
-spec terms(Bytes :: binary()) -> [term()].
terms(Bytes) ->
    binary_to_term(Bytes).

%% @doc Folds over the bytes of the whole records of a file, whose first place is known. Returns where they end, the
%% place of the next record, and what follows.
-spec fold(File :: binary(), place(), fun((Bytes :: binary(), Acc) -> Acc), Acc) ->
    {End :: non_neg_integer(), place(), tail(), Acc}.
fold(File, Place, Fun, Acc) ->
    fold(File, 0, Place, Fun, Acc).

fold(File, At, Place, Fun, Acc) ->
    <<_:At/binary, Rest/binary>> = File,
    case first(Rest) of
        {Place, Bytes} -> fold(File, At + ?HEAD_LEN + byte_size(Bytes), Place + 1, Fun, Fun(Bytes, Acc));
        {_, _} -> {At, Place, damaged, Acc};
        none -> {At, Place, tail(Rest, Place), Acc}
    end.

%% Returns the place and the bytes of the record that begins here, if it is whole.
first(<<Place:64, Length:32, Sum:32, Bytes:Length/binary, _/binary>>) ->
    case sum(Place, Length, Bytes) of
        Sum -> {Place, Bytes};
        _ -> none
    end;
first(_) ->
    none.

tail(<<>>, _) ->
    none;
tail(<<_, Rest/binary>>, Place) ->
    case has_later(Rest, Place, Place + byte_size(Rest) div ?HEAD_LEN) of
        true -> damaged;
        false -> torn
    end.

%% Returns true if a whole record of a later place begins at some byte. The bytes are too few for a place over the last.
has_later(<<Place:64, _/binary>> = Bytes, Bad, Last) when Place > Bad, Place =< Last ->
    case first(Bytes) of
        none -> has_later_after(Bytes, Bad, Last);
        _ -> true
    end;
has_later(<<>>, _, _) ->
    false;
has_later(Bytes, Bad, Last) ->
    has_later_after(Bytes, Bad, Last).

has_later_after(<<_, Rest/binary>>, Bad, Last) ->
    has_later(Rest, Bad, Last).

sum(Place, Length, Bytes) ->
    erlang:crc32(erlang:crc32(<<Place:64, Length:32>>), Bytes).
