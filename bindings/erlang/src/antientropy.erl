%% @doc A replica of a range of a Dynamo-style store, over the proved C library.
%%
%% A replica holds versions of keys. {@link sync/4} accepts a partner's versions that are missing, by messages that the
%% program carries. {@link antientropy_hints} and {@link antientropy_slots} use no replica.
%%
%% A call that is refused returns `{error, Reason}': see {@link reason()}. It changes nothing, with these exceptions:
%% those of `antientropy.h', an exchange or a snapshot may have held a moment ({@link hold/1}), and a sync keeps the
%% versions that it accepted. An argument of a wrong type raises `badarg', and so does a number of over 64 bits (of an
%% offer and of slots: over 32 bits). The rest of a value or a clock that is too long isn't read. A source, a verdict, a
%% report or an order that only a newer library knows is its number.
%%
%% Processes of an Erlang node may share a handle, and read a replica or a snapshot at once. A process whose call can't
%% run yet waits in line, and holds no scheduler.
-module(antientropy).

-export([version/0, name/1, place/3, compare/2, merge/1, read_offer/1]).
-export([new/0, new/1, new_seeded/3, close/1, migrate/1, about/1, info/1, count/1, bytes/1]).
-export([renew/1, renew/2, renew_in_place/1, renew_in_place/2, renewal/2, keep_renewed/1]).
-export([put/4, put/5, put_unread/5, accept/3, get/2, read/3, count_versions/2, value/3, clock/3, row/2]).
-export([key_after/3, keys/1, keys/2, fold_keys/3, entry/2, entries/2, fold_entries/4, top_counter/3, top_counter/4]).
-export([packed_entries/2, unpack_entries/1]).
-export([root/1, snapshot/1, snapshot/2, load_rows/2, load_format/3, save/2, load/1, load/2]).
-export([hold/1, hash_moment/2, moment/1, drop_moment/1, rehash/1, rehash_some/2]).
-export([exchange/4, drop_sessions/1, sync/4, sync/5]).

-import(antientropy_call, [result/1]).

-export_type([replica/0, options/0, clock/0, clock_like/0, value/0, value_like/0, version/0, version_like/0]).
-export_type([entry/0, packed/0, order/0, refused/0, reason/0]).

-define(OPTIONS, #{format => 2, bits => 0, range => 0, limit => 1000000}).
-define(LIMIT, 1000000).
-define(BOUNDS, #{asks => 256, bytes => 1 bsl 20, bad => 8, lost => 256, plain => false}).
%% No journal has more entries.
-define(ALL, 16#ffffffffffffffff).

-opaque replica() :: reference().
%% A replica. The garbage collector frees one that is dropped.
-type options() :: #{
    format => 1 | 2, bits => non_neg_integer(), range => non_neg_integer(), limit => pos_integer()
}.
%% The number of a range in a ring of 2^bits ranges, its format, and the maximum number of the journal's entries.
-type clock() :: #{Node :: pos_integer() => Counter :: pos_integer()}.
-type clock_like() :: clock() | [{Node :: non_neg_integer(), Counter :: non_neg_integer()}].
%% A clock that a call takes: a map, or pairs in any order.
-type value() :: binary() | tombstone.
-type value_like() :: iodata() | tombstone.
-type version() :: #{clock := clock(), value := value()}.
-type version_like() :: #{clock := clock_like(), value := value_like(), _ => _}.
%% A version that a call takes. It may have other members: an entry and a hint are versions, too.
-type entry() :: #{
    number := non_neg_integer(),
    key := binary(),
    clock := clock(),
    value := value(),
    source := put | copy | hint | partner
}.
-type packed() :: #{
    format := 1 | 2, from := non_neg_integer(), next := non_neg_integer(), bytes := binary()
}.
%% Packed entries, without a gap (docs/FORMATS.md): their format, the number of the first one and that after the last
%% one, and their texts.
-type order() :: before | 'after' | equal | apart.
-type refused() :: {error, reason()}.
-type reason() ::
    bad_clock | clock_full | counter_full | bad_key | bad_value | stale_context | crowded | journal_full | other_range
    | dirty | stale | not_canonical | other_format | sessions_full | no_slot | clock_back | unknown_hint | hints_full
    | gone | bad_ring | bad_message | no_memory | empty | no_version | bad_position.
%% The causes for which a call is refused. docs/FORMATS.md says what to do.

%% ---- the library

%% @doc Returns the version of the library.
-spec version() -> {Major :: non_neg_integer(), Minor :: non_neg_integer(), Patch :: non_neg_integer()}.
version() ->
    Number = result(antientropy_nif:version()),
    {Number div 10000, Number div 100 rem 100, Number rem 100}.

%% @doc Returns the name of a number of `antientropy.h': `bad_key' for 4. Other numbers are `undefined'.
-spec name(Number :: non_neg_integer()) -> Name :: atom().
name(Number) ->
    result(antientropy_nif:name(Number)).

%% @doc Returns the range and the leaf of a key, in a ring of 2^bits ranges. Refused: `bad_ring', `bad_key'.
-spec place(Format, Bits, Key :: binary()) -> {ok, Spot} | refused() when
    Format :: non_neg_integer(),
    Bits :: non_neg_integer(),
    Spot :: #{range := non_neg_integer(), leaf := non_neg_integer()}.
place(Format, Bits, Key) ->
    result(antientropy_nif:place(Format, Bits, Key)).

%% @doc Compares two clocks. Refused: `bad_clock', `clock_full'.
-spec compare(First :: clock_like(), Second :: clock_like()) -> {ok, order()} | refused().
compare(First, Second) ->
    result(antientropy_nif:compare(First, Second)).

%% @doc Merges clocks, for the context of a put that replaces the versions of all. Refused: `bad_clock', `clock_full'.
-spec merge(Clocks :: [clock_like()]) -> {ok, clock()} | refused().
merge(Clocks) ->
    lists:foldl(fun merge_into/2, {ok, #{}}, Clocks).

merge_into(Clock, {ok, Merged}) -> result(antientropy_nif:merge(Merged, Clock));
merge_into(_, Refused) -> Refused.

%% @doc Returns the parts of a partner's offer. Refused: `bad_message'.
-spec read_offer(Offer :: iodata()) -> {ok, Parts} | refused() when
    Parts :: #{
        number := non_neg_integer(), format := non_neg_integer(), range := non_neg_integer(), root := binary()
    }.
read_offer(Offer) ->
    result(antientropy_nif:read_offer(Offer)).

%% ---- a replica

%% @doc Makes a replica of the one range of a ring of 0 bits, in format 2.
-spec new() -> {ok, replica()} | refused().
new() ->
    new(#{}).

%% @doc Makes a replica. Refused: `bad_ring'.
-spec new(options()) -> {ok, replica()} | refused().
new(Options) ->
    #{format := Format, bits := Bits, range := Range, limit := Limit} = with_defaults(Options, ?OPTIONS),
    result(antientropy_nif:new(Format, Bits, Range, Limit)).

%% @doc Makes a replica that finds keys by a hash with a seed of two words.
%%
%% Random words make it hard for clients to choose keys with equal hashes, which are slow to find. Refused: `bad_ring'.
-spec new_seeded(options(), First :: non_neg_integer(), Second :: non_neg_integer()) -> {ok, replica()} | refused().
new_seeded(Options, First, Second) ->
    #{format := Format, bits := Bits, range := Range, limit := Limit} = with_defaults(Options, ?OPTIONS),
    result(antientropy_nif:new_seeded(Format, Bits, Range, Limit, First, Second)).

%% Options, with the default of each that isn't there. Others are `badarg'.
with_defaults(Options, Defaults) when is_map(Options) ->
    case maps:merge(Defaults, Options) of
        Merged when map_size(Merged) =:= map_size(Defaults) -> Merged;
        _ -> error(badarg)
    end;
with_defaults(_, _) ->
    error(badarg).

%% @doc Frees the memory. Later calls are refused as `empty'.
%%
%% Without it the garbage collector frees a replica that is dropped, and a large one in a thread of the NIF.
-spec close(replica()) -> ok.
close(Replica) ->
    result(antientropy_nif:close(Replica)).

%% @doc Renews a replica with a limit of 1,000,000 entries: see {@link renew/2}.
-spec renew(replica()) -> {ok, replica()} | refused().
renew(Replica) ->
    renew(Replica, ?LIMIT).

%% @doc Makes a new replica with the versions that are held: one entry for each, and no sessions.
%%
%% The old one is unchanged: close it, and use the new one under the same node number. Both replicas count the same
%% number of entries, and the next entry gets a number that was never used. A log that has all entries of the old one
%% continues at its position. Refused: `bad_ring' (the limit), `journal_full' (more versions are held than the limit, or
%% no numbers are left).
-spec renew(replica(), Limit :: pos_integer()) -> {ok, replica()} | refused().
renew(Replica, Limit) ->
    result(antientropy_nif:renew(Replica, Limit)).

%% @doc Renews a replica in its place, with a limit of 1,000,000 entries: see {@link renew_in_place/2}.
-spec renew_in_place(replica()) -> ok | refused().
renew_in_place(Replica) ->
    renew_in_place(Replica, ?LIMIT).

%% @doc Renews a replica as {@link renew/2} does, in its place, while other processes put.
%%
%% It holds the current rows as a moment, as {@link snapshot/1} does, makes the new journal from them, and accepts the
%% entries that were put meanwhile, in steps. Other calls run between the steps. All processes keep their handle. The
%% sessions and the moment are dropped, and the report of an exchange is `gone'. Entries since the moment keep their
%% numbers, with the source `copy'. A log that has all entries before the moment continues at its position. If the
%% process is killed before the last step, the replica is unchanged.
%%
%% Refused: `bad_ring' (the limit), `journal_full' (more versions are held than the limit, or accepted meanwhile),
%% `stale' (another process has renewed or migrated the replica meanwhile). A refused call leaves the replica unchanged.
-spec renew_in_place(replica(), Limit :: pos_integer()) -> ok | refused().
renew_in_place(Replica, Limit) ->
    antientropy_renewal:renew_in_place(Replica, Limit).

%% @doc Makes a renewal as {@link renew_in_place/2} does. The program finishes it later: see {@link
%% antientropy_renewal}. Refused: `bad_ring', `journal_full', `stale'.
-spec renewal(replica(), Limit :: pos_integer()) -> {ok, antientropy_renewal:renewal()} | refused().
renewal(Replica, Limit) ->
    antientropy_renewal:make(Replica, Limit).

%% @doc Keeps a replica renewed in its place from now on, with its limit.
%%
%% A put, an acceptance, a load or the end of an exchange that finds a renewal due starts a process for it, one at a
%% time. A renewal is due when nine tenths of the limit are used, and half of the entries that the last renewal left
%% free. A journal that rows fill isn't renewed again and again. Puts continue during a renewal, as {@link
%% renew_in_place/2} says. A put is refused as `journal_full' only if the last tenth of the limit is used before the
%% renewal has ended.
%%
%% A log that doesn't have all entries before a renewal gets `bad_position', and continues at `first' of {@link
%% count/1}.
-spec keep_renewed(replica()) -> ok | refused().
keep_renewed(Replica) ->
    result(antientropy_nif:keep_renewed(Replica)).

%% @doc Converts a replica of format 1 to format 2. All nodes become dirty, and open sessions are cancelled.
-spec migrate(replica()) -> ok | refused().
migrate(Replica) ->
    result(antientropy_nif:migrate(Replica)).

%% @doc Returns the format, the bits of the ring, the range, and the number of entries. A checkpoint or a log names
%% them.
-spec about(replica()) -> {ok, About} | refused() when
    About :: #{
        format := 1 | 2, bits := non_neg_integer(), range := non_neg_integer(), entries := non_neg_integer()
    }.
about(Replica) ->
    result(antientropy_nif:about(Replica)).

%% @doc Returns what {@link about/1} does, without the number of entries.
-spec info(replica()) -> {ok, Info} | refused() when
    Info :: #{format := 1 | 2, bits := non_neg_integer(), range := non_neg_integer()}.
info(Replica) ->
    case about(Replica) of
        {ok, About} -> {ok, maps:remove(entries, About)};
        Refused -> Refused
    end.

%% @doc Returns the counts of entries, dirty nodes and sessions.
%%
%% `entries' is the number of the next entry, over all renewals, and `first' the number of the journal's first entry:
%% the journal is full when `entries' less `first' reaches `limit'. `front' is `entries' at the last moment that was
%% whole, or `first' if there was none since a renewal. `sessions' are those that are kept: see {@link drop_sessions/1}.
-spec count(replica()) -> {ok, Counts} | refused() when
    Counts :: #{
        entries := non_neg_integer(),
        limit := pos_integer(),
        dirty := non_neg_integer(),
        sessions := non_neg_integer(),
        open_sessions := non_neg_integer(),
        first := non_neg_integer(),
        front := non_neg_integer()
    }.
count(Replica) ->
    result(antientropy_nif:count(Replica)).

%% @doc Returns the size of a replica: lengths of contents in bytes. Its memory differs.
%%
%% `rows' are as {@link antientropy_snapshot:rows/2} returns them. `journal' is the keys, values and clocks of the
%% entries from `first' of {@link count/1} on, 10 bytes for each pair of a clock. `sessions' is what sessions keep in
%% addition: the texts that they took, and the leaves of their rows that have changed since or have no digest now.
%%
%% It looks at each chunk of 15 rows and at the digests of each session's leaves: call it once in some seconds, not at
%% each put.
-spec bytes(replica()) -> {ok, Bytes} | refused() when
    Bytes :: #{rows := non_neg_integer(), journal := non_neg_integer(), sessions := non_neg_integer()}.
bytes(Replica) ->
    result(antientropy_nif:bytes(Replica)).

%% ---- versions

%% @doc Puts a value of a key that the client hasn't read: see {@link put/5}.
-spec put(replica(), Node :: non_neg_integer(), Key :: binary(), value_like()) -> {ok, Receipt} | refused() when
    Receipt :: #{number := non_neg_integer(), counter := pos_integer()}.
put(Replica, Node, Key, Value) ->
    result(antientropy_nif:put(Replica, Node, Key, Value, #{})).

%% @doc Puts a value, or a tombstone, at a node, after a read: the context is the clock of all that was read.
%%
%% The new version replaces every held version whose clock is at most its clock. The client has read each of these:
%% `stale_context' means that a held version has a greater counter of the node than the context, so another client has
%% put in between: read again. The receipt has the number of the new version's entry, and the node's counter in its
%% clock: `Context#{Node => Counter}'. Refused: `bad_clock' (also if the node is 0 or over 65,535), `clock_full',
%% `bad_key', `bad_value', `other_range', `counter_full', `stale_context', `crowded', `journal_full'.
-spec put(replica(), Node, Key :: binary(), value_like(), Context) -> {ok, Receipt} | refused() when
    Node :: non_neg_integer(),
    Context :: clock_like(),
    Receipt :: #{number := non_neg_integer(), counter := pos_integer()}.
put(Replica, Node, Key, Value, Context) ->
    result(antientropy_nif:put(Replica, Node, Key, Value, Context)).

%% @doc Puts as {@link put/5} does, for a caller that has made its check itself.
%%
%% The new version replaces even a held version that the client hasn't read. Refused: what {@link put/5} refuses, but as
%% `stale_context' only if a held version has seen all of the new version's clock.
-spec put_unread(replica(), Node, Key :: binary(), value_like(), Context) -> {ok, Receipt} | refused() when
    Node :: non_neg_integer(),
    Context :: clock_like(),
    Receipt :: #{number := non_neg_integer(), counter := pos_integer()}.
put_unread(Replica, Node, Key, Value, Context) ->
    result(antientropy_nif:put_unread(Replica, Node, Key, Value, Context)).

%% @doc Accepts a version of another replica, as a copy. Returns `known' if the replica had it.
%%
%% Refused: `bad_clock', `clock_full', `bad_key', `bad_value', `other_range', `crowded', `journal_full'.
-spec accept(replica(), Key :: binary(), version_like()) -> {ok, new | known} | refused().
accept(Replica, Key, Version) ->
    result(antientropy_nif:accept(Replica, Key, Version)).

%% @doc Returns all versions held for a key, as they are at one moment. Several are concurrent.
-spec get(replica(), Key :: binary()) -> {ok, [version()]} | refused().
get(Replica, Key) ->
    result(antientropy_nif:get(Replica, Key)).

%% @doc Returns one of the versions held for a key, by its index from 0. Refused: `no_version'.
-spec read(replica(), Key :: binary(), Index :: non_neg_integer()) -> {ok, version()} | refused().
read(Replica, Key, Index) ->
    result(antientropy_nif:read(Replica, Key, Index)).

%% @doc Returns the number of versions held for a key.
-spec count_versions(replica(), Key :: binary()) -> {ok, non_neg_integer()} | refused().
count_versions(Replica, Key) ->
    result(antientropy_nif:count_versions(Replica, Key)).

%% @doc Returns the value of one of the versions held for a key. Refused: `no_version'.
-spec value(replica(), Key :: binary(), Index :: non_neg_integer()) -> {ok, value()} | refused().
value(Replica, Key, Index) ->
    result(antientropy_nif:value(Replica, Key, Index)).

%% @doc Returns the clock of one of the versions held for a key. Refused: `no_version'.
-spec clock(replica(), Key :: binary(), Index :: non_neg_integer()) -> {ok, clock()} | refused().
clock(Replica, Key, Index) ->
    result(antientropy_nif:clock(Replica, Key, Index)).

%% @doc Returns the text of the row of a key (docs/FORMATS.md), or no bytes if none is held. Refused: `bad_key'.
-spec row(replica(), Key :: binary()) -> {ok, Row :: binary()} | refused().
row(Replica, Key) ->
    result(antientropy_nif:row(Replica, Key)).

%% ---- keys and the journal

%% @doc Returns the least key of a leaf above a key, or the first one for `<<>>'. Refused: `bad_message' (the tree has
%% no such leaf), `no_version' (no key follows).
-spec key_after(replica(), Leaf :: non_neg_integer(), Key :: binary()) -> {ok, Next :: binary()} | refused().
key_after(Replica, Leaf, Key) ->
    result(antientropy_nif:key_after(Replica, Leaf, Key)).

%% @doc Returns all keys, leaf by leaf.
-spec keys(replica()) -> {ok, [binary()]} | refused().
keys(Replica) ->
    antientropy_keys:all(fun key_after/3, Replica).

%% @doc Returns the keys of a leaf in ascending order. Refused: `bad_message' (the tree has no such leaf).
-spec keys(replica(), Leaf :: non_neg_integer()) -> {ok, [binary()]} | refused().
keys(Replica, Leaf) ->
    antientropy_keys:of_leaf(fun key_after/3, Replica, Leaf).

%% @doc Folds over the keys, leaf by leaf. It includes keys that are put meanwhile in a later place.
-spec fold_keys(fun((Key :: binary(), Acc) -> Acc), Acc, replica()) -> {ok, Acc} | refused().
fold_keys(Fun, Acc, Replica) ->
    antientropy_keys:fold(Fun, Acc, fun key_after/3, Replica).

%% @doc Returns an entry of the journal, by its number. Refused: `no_version'.
-spec entry(replica(), Number :: non_neg_integer()) -> {ok, entry()} | refused().
entry(Replica, Number) ->
    result(antientropy_nif:entry(Replica, Number)).

%% @doc Returns the entries of the journal, from a number on. Refused: what {@link fold_entries/4} refuses.
-spec entries(replica(), From :: non_neg_integer()) -> {ok, [entry()]} | refused().
entries(Replica, From) ->
    reversed(fold_entries(fun prepend/2, [], Replica, From)).

%% @doc Folds over the entries of the journal, from a number on: those that {@link packed_entries/2} returns.
-spec fold_entries(fun((entry(), Acc) -> Acc), Acc, replica(), From :: non_neg_integer()) -> {ok, Acc} | refused().
fold_entries(Fun, Acc, Replica, From) ->
    antientropy_entries:fold(Fun, Acc, Replica, From).

%% @doc Returns packed entries from a number on, up to 1 MiB of them, or none at the end. The next call begins at
%% `next'.
%%
%% A log that reads from its position, the number of entries that it has, gets every entry, also after renewals.
%% Refused: `bad_position' (the number is over the number of entries; or it is below the number of entries at the last
%% renewal, and isn't `first' of {@link count/1}: read from `first', which returns all versions that are held, and later
%% entries).
-spec packed_entries(replica(), From :: non_neg_integer()) -> {ok, packed()} | refused().
packed_entries(Replica, From) ->
    result(antientropy_nif:packed_entries(Replica, From)).

%% @doc Returns the entries in what {@link packed_entries/2} returned. Bytes that aren't entries are `badarg'.
-spec unpack_entries(packed()) -> [entry()].
unpack_entries(Packed) ->
    antientropy_entries:unpack(Packed).

%% @doc Returns the greatest counter of a node in the clocks of the versions of a key, of all entries: see {@link
%% top_counter/4}.
-spec top_counter(replica(), Node :: non_neg_integer(), Key :: binary()) -> {ok, non_neg_integer()} | refused().
top_counter(Replica, Node, Key) ->
    top_counter(Replica, Node, Key, ?ALL).

%% @doc Returns the greatest counter of a node in the clocks of the versions of a key, or 0.
%%
%% It looks at the journal's entries of numbers below `Entries'. Refused: `bad_clock' (the node is 0 or over 65,535).
-spec top_counter(replica(), Node :: non_neg_integer(), Key :: binary(), Entries :: non_neg_integer()) ->
    {ok, non_neg_integer()} | refused().
top_counter(Replica, Node, Key, Entries) ->
    result(antientropy_nif:top_counter(Replica, Node, Key, Entries)).

prepend(Item, Items) -> [Item | Items].

reversed({ok, Items}) -> {ok, lists:reverse(Items)};
reversed(Refused) -> Refused.

%% ---- snapshots and checkpoints

%% @doc Returns the digest of the root now. Replicas of a range with equal roots hold the same versions.
%%
%% It makes a snapshot, as {@link snapshot/1} does.
-spec root(replica()) -> {ok, Root :: binary()} | refused().
root(Replica) ->
    case snapshot(Replica) of
        {ok, Snapshot} -> closed(Snapshot, antientropy_snapshot:root(Snapshot));
        Refused -> Refused
    end.

%% @doc Returns a snapshot of the current rows.
%%
%% It holds a moment, and hashes it in portions while other processes put: see {@link hold/1}. Puts can't keep it from
%% its end. If another process holds a later moment meanwhile, that becomes the snapshot. It drops the moment at its
%% end.
-spec snapshot(replica()) -> {ok, antientropy_snapshot:snapshot()} | refused().
snapshot(Replica) ->
    antientropy_moment:snapshot(Replica).

%% @doc Returns a snapshot as {@link snapshot/1} does. If `rehash' is false, hashes nothing, and makes no moment.
%%
%% Refused if `rehash' is false: `dirty' (a node of the tree has no digest).
-spec snapshot(replica(), #{rehash => boolean()}) -> {ok, antientropy_snapshot:snapshot()} | refused().
snapshot(Replica, Options) ->
    case is_to_hash(Options) of
        true -> antientropy_moment:snapshot(Replica);
        false -> result(antientropy_nif:snapshot(Replica))
    end.

is_to_hash(Options) ->
    case with_defaults(Options, #{rehash => true}) of
        #{rehash := Rehash} when is_boolean(Rehash) -> Rehash;
        _ -> error(badarg)
    end.

%% @doc Accepts all versions in rows of one leaf as copies, or none.
%%
%% {@link row/2} and {@link antientropy_snapshot:rows/2} return such rows.
%%
%% Refused: `{row_broken, Offset}' (the offset of the broken field in bytes), `other_range', `crowded', `journal_full'.
-spec load_rows(replica(), Rows :: iodata()) -> {ok, Loaded} | refused() | {error, {row_broken, Offset}} when
    Loaded :: #{new := non_neg_integer(), known := non_neg_integer()},
    Offset :: non_neg_integer().
load_rows(Replica, Rows) ->
    result(antientropy_nif:load_rows(Replica, Rows)).

%% @doc Accepts all versions in rows of a format and of any leaves, in ascending order of key, as copies, or none.
%%
%% A replica of format 2 loads rows of format 1 too. Refused: `bad_ring' (the format is neither 1 nor 2), `other_format'
%% (rows of format 2, replica of format 1), `{row_broken, Offset}', `other_range', `crowded', `journal_full'.
-spec load_format(replica(), Format :: non_neg_integer(), Rows :: iodata()) ->
    {ok, Loaded} | refused() | {error, {row_broken, Offset}} when
    Loaded :: #{new := non_neg_integer(), known := non_neg_integer()},
    Offset :: non_neg_integer().
load_format(Replica, Format, Rows) ->
    result(antientropy_nif:load_format(Replica, Format, Rows)).

%% @doc Writes a checkpoint of the current rows (docs/FORMATS.md), and returns the number of entries that it covers: a
%% log continues at that position.
%%
%% It makes a snapshot, as {@link snapshot/1} does, so other processes may put meanwhile. The file is open for writing
%% in mode `binary'; the caller syncs it to its disk.
-spec save(replica(), file:io_device()) ->
    {ok, Entries :: non_neg_integer()} | refused() | antientropy_checkpoint:failed().
save(Replica, File) ->
    case snapshot(Replica) of
        {ok, Snapshot} -> closed(Snapshot, save_all(Snapshot, File));
        Refused -> Refused
    end.

save_all(Snapshot, File) ->
    case antientropy_snapshot:save(Snapshot, File) of
        ok ->
            {ok, #{entries := Entries}} = antientropy_snapshot:info(Snapshot),
            {ok, Entries};
        Failed ->
            Failed
    end.

closed(Snapshot, Result) ->
    ok = antientropy_snapshot:close(Snapshot),
    Result.

%% @doc Loads a checkpoint, with a limit of 1,000,000 entries: see {@link load/2}.
-spec load(file:io_device()) -> {ok, replica()} | refused() | antientropy_checkpoint:failed().
load(File) ->
    load(File, ?LIMIT).

%% @doc Makes a replica with the rows of a checkpoint. The file is open for reading in mode `binary'.
%%
%% Its entries are numbered from 0, leaf by leaf. The root finds damage, but no forged file. Check {@link info/1}
%% against the configuration. Refused: `bad_ring' (the limit, or the bits and the range of the file), `journal_full'.
-spec load(file:io_device(), Limit :: pos_integer()) ->
    {ok, replica()} | refused() | antientropy_checkpoint:failed().
load(File, Limit) ->
    antientropy_checkpoint:read(File, Limit).

%% ---- the moment and the tree

%% @doc Keeps the current rows as the replica's moment, and drops the moment before. Copies no row.
%%
%% A moment never changes, so it is hashed while puts change the replica: repeat {@link hash_moment/2} until no node is
%% left, and call {@link moment/1} for its snapshot. While the moment is kept, the first change of each block of some
%% rows copies the block. The next hold frees the blocks that only this moment has, and other calls wait meanwhile,
%% unless {@link drop_moment/1} was called before the snapshot was closed.
%%
%% {@link snapshot/1}, {@link root/1}, {@link save/2}, {@link exchange/4} and {@link sync/4} make all these calls.
-spec hold(replica()) -> ok | refused().
hold(Replica) ->
    result(antientropy_nif:hold(Replica)).

%% @doc Hashes at most `Most' nodes of the moment, and returns the number of its nodes that still have no digest: 0 if
%% it is whole, or without a moment. Other processes may put meanwhile.
-spec hash_moment(replica(), Most :: non_neg_integer()) -> {ok, Left :: non_neg_integer()} | refused().
hash_moment(Replica, Most) ->
    antientropy_moment:hash(Replica, Most).

%% @doc Returns a snapshot of the moment. Refused: `dirty' (without a moment, or if it isn't whole).
-spec moment(replica()) -> {ok, antientropy_snapshot:snapshot()} | refused().
moment(Replica) ->
    result(antientropy_nif:moment(Replica)).

%% @doc Drops the moment, if any. Snapshots of it stay valid. {@link migrate/1} drops it, too.
-spec drop_moment(replica()) -> ok | refused().
drop_moment(Replica) ->
    result(antientropy_nif:drop_moment(Replica)).

%% @doc Hashes all nodes of the tree that have no digest, in portions. Other calls run between them.
%%
%% Only a snapshot with `rehash' false needs it.
-spec rehash(replica()) -> ok | refused().
rehash(Replica) ->
    antientropy_moment:rehash(Replica).

%% @doc Hashes at most `Most' nodes of the tree, and returns the number of nodes that still have no digest.
%%
%% Other calls of the replica wait meanwhile. A busy replica may always have nodes without a digest: see {@link hold/1}.
-spec rehash_some(replica(), Most :: non_neg_integer()) -> {ok, Left :: non_neg_integer()} | refused().
rehash_some(Replica, Most) ->
    result(antientropy_nif:rehash_some(Replica, Most)).

%% ---- syncs

%% @doc Opens an exchange with a partner's offer: see {@link antientropy_exchange}.
%%
%% It compares the rows of a moment, which it holds and hashes as {@link snapshot/1} does. It may ask for leaves that
%% differ only because of later puts. If the roots are equal it is finished, and has no session. The default bounds are
%% 256 asks, 1 MiB, 8 bad answers and 256 lost asks, and asks may be outlines. Refused: `bad_clock' (the partner is over
%% 65,535), `bad_message', `other_format', `other_range', `sessions_full' (64 sessions are open, or 1,024 are kept).
-spec exchange(replica(), Partner :: non_neg_integer(), Offer :: iodata(), antientropy_exchange:bounds()) ->
    {ok, antientropy_exchange:exchange()} | refused().
exchange(Replica, Partner, Offer, Bounds) ->
    antientropy_moment:exchange(Replica, Partner, Offer, with_defaults(Bounds, ?BOUNDS)).

%% @doc Drops the sessions that have ended, with the rows and texts that they keep.
%%
%% {@link antientropy_exchange:close/1} does so. It first closes exchanges that no process has any more. Other open
%% sessions are unchanged. The source `partner' of entries becomes `copy'.
-spec drop_sessions(replica()) -> ok | refused().
drop_sessions(Replica) ->
    result(antientropy_nif:drop_sessions(Replica)).

%% @doc Syncs within the default bounds: see {@link sync/5}.
-spec sync(replica(), Partner :: non_neg_integer(), Offer :: iodata(), antientropy_sync:reach()) ->
    {ok, antientropy_sync:synced()} | refused().
sync(Replica, Partner, Offer, Reach) ->
    sync(Replica, Partner, Offer, Reach, #{}).

%% @doc Accepts the versions of a partner's offer that are missing, by an exchange, which it closes at its end.
%%
%% Other processes may put meanwhile. `Reach' sends asks to the partner, up to the bounds, and returns the answers, in
%% any order; missing answers count as lost. If it raises an exception, the exchange is closed, too. The replica keeps
%% the versions that it accepted. Refused: as {@link exchange/4}, and `not_canonical', `journal_full'.
-spec sync(replica(), Partner :: non_neg_integer(), Offer :: iodata(), antientropy_sync:reach(), Bounds) ->
    {ok, antientropy_sync:synced()} | refused() when
    Bounds :: antientropy_exchange:bounds().
sync(Replica, Partner, Offer, Reach, Bounds) ->
    antientropy_sync:sync(Replica, Partner, Offer, Reach, Bounds).
