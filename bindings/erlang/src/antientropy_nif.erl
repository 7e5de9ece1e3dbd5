%% @private
%% @doc The functions of the NIF library, whose sources are in c_src. The other modules have their types and comments.
-module(antientropy_nif).
-on_load(load/0).

-export([
    wait/4, version/0, name/1, place/3, compare/2, merge/2, read_offer/1, new/4, new_seeded/6, close/1, renew/2,
    renewal/1, renewal_of_moment/4, renewal_build/1, renewal_catch_up/2, renewal_finish/1, renewal_close/1,
    keep_renewed/1, due_renewal/1, migrate/1, about/1, count/1, bytes/1, rehash_some/2, hold/1, drop_moment/1,
    take_portion/2, hash_portion/1, install_portion/2, moment/1, snapshot_of_moment/3, exchange_of_moment/6,
    load_rows/2, load_format/3, put/5, put_unread/5, accept/3, get/2, read/3, count_versions/2, value/3, clock/3, row/2,
    key_after/3, entry/2, packed_entries/2, top_counter/4, snapshot/1, snapshot_share/1, snapshot_close/1,
    snapshot_info/1, snapshot_bytes/1, snapshot_row/2, snapshot_key_after/3, root/1, digest/3, offer/2, serve/3, rows/2,
    exchange_asks/1, exchange_take/2, exchange_lose/2, exchange_go_on/1, exchange_progress/1, exchange_left/1,
    exchange_close/1, drop_sessions/1, hints_new/0, hints_restore/1, hints_close/1, hint_keep/4, hint_next/3, hint/2,
    hint_confirm/3, hints_renew/1, hints_count/1, hints_bytes/1, slots_new/3, slots_close/1, slot_lend/1,
    slot_give_back/1, slots_sample/3, slots_adjust/2, slots_set_target/2, slots_count/1
]).

-define(NOT_LOADED, erlang:nif_error(not_loaded)).

load() ->
    case code:priv_dir(antientropy) of
        {error, bad_name} -> {error, "the code path has no application antientropy"};
        Folder -> erlang:load_nif(filename:join(Folder, "antientropy_nif"), 0)
    end.

wait(_Handle, _Reads, _IsLong, _Turn) -> ?NOT_LOADED.
version() -> ?NOT_LOADED.
name(_Number) -> ?NOT_LOADED.
place(_Format, _Bits, _Key) -> ?NOT_LOADED.
compare(_First, _Second) -> ?NOT_LOADED.
merge(_First, _Second) -> ?NOT_LOADED.
read_offer(_Offer) -> ?NOT_LOADED.
new(_Format, _Bits, _Range, _Limit) -> ?NOT_LOADED.
new_seeded(_Format, _Bits, _Range, _Limit, _First, _Second) -> ?NOT_LOADED.
close(_Replica) -> ?NOT_LOADED.
renew(_Replica, _Limit) -> ?NOT_LOADED.
renewal(_Replica) -> ?NOT_LOADED.
renewal_of_moment(_Renewal, _Limit, _From, _Most) -> ?NOT_LOADED.
renewal_build(_Renewal) -> ?NOT_LOADED.
renewal_catch_up(_Renewal, _Most) -> ?NOT_LOADED.
renewal_finish(_Renewal) -> ?NOT_LOADED.
renewal_close(_Renewal) -> ?NOT_LOADED.
keep_renewed(_Replica) -> ?NOT_LOADED.
due_renewal(_Replica) -> ?NOT_LOADED.
migrate(_Replica) -> ?NOT_LOADED.
about(_Replica) -> ?NOT_LOADED.
count(_Replica) -> ?NOT_LOADED.
bytes(_Replica) -> ?NOT_LOADED.
rehash_some(_Replica, _Most) -> ?NOT_LOADED.
hold(_Replica) -> ?NOT_LOADED.
drop_moment(_Replica) -> ?NOT_LOADED.
take_portion(_Replica, _Most) -> ?NOT_LOADED.
hash_portion(_Portion) -> ?NOT_LOADED.
install_portion(_Replica, _Portion) -> ?NOT_LOADED.
moment(_Replica) -> ?NOT_LOADED.
snapshot_of_moment(_Replica, _From, _Most) -> ?NOT_LOADED.
exchange_of_moment(_Replica, _Partner, _Offer, _Bounds, _From, _Most) -> ?NOT_LOADED.
load_rows(_Replica, _Rows) -> ?NOT_LOADED.
load_format(_Replica, _Format, _Rows) -> ?NOT_LOADED.
put(_Replica, _Node, _Key, _Value, _Context) -> ?NOT_LOADED.
put_unread(_Replica, _Node, _Key, _Value, _Context) -> ?NOT_LOADED.
accept(_Replica, _Key, _Version) -> ?NOT_LOADED.
get(_Replica, _Key) -> ?NOT_LOADED.
read(_Replica, _Key, _Index) -> ?NOT_LOADED.
count_versions(_Replica, _Key) -> ?NOT_LOADED.
value(_Replica, _Key, _Index) -> ?NOT_LOADED.
clock(_Replica, _Key, _Index) -> ?NOT_LOADED.
row(_Replica, _Key) -> ?NOT_LOADED.
key_after(_Replica, _Leaf, _Key) -> ?NOT_LOADED.
entry(_Replica, _Number) -> ?NOT_LOADED.
packed_entries(_Replica, _From) -> ?NOT_LOADED.
top_counter(_Replica, _Node, _Key, _Entries) -> ?NOT_LOADED.
snapshot(_Replica) -> ?NOT_LOADED.
snapshot_share(_Snapshot) -> ?NOT_LOADED.
snapshot_close(_Snapshot) -> ?NOT_LOADED.
snapshot_info(_Snapshot) -> ?NOT_LOADED.
snapshot_bytes(_Snapshot) -> ?NOT_LOADED.
snapshot_row(_Snapshot, _Key) -> ?NOT_LOADED.
snapshot_key_after(_Snapshot, _Leaf, _Key) -> ?NOT_LOADED.
root(_Snapshot) -> ?NOT_LOADED.
digest(_Snapshot, _Depth, _Index) -> ?NOT_LOADED.
offer(_Snapshot, _Number) -> ?NOT_LOADED.
serve(_Snapshot, _Number, _Ask) -> ?NOT_LOADED.
rows(_Snapshot, _Leaf) -> ?NOT_LOADED.
exchange_asks(_Exchange) -> ?NOT_LOADED.
exchange_take(_Exchange, _Answer) -> ?NOT_LOADED.
exchange_lose(_Exchange, _Ask) -> ?NOT_LOADED.
exchange_go_on(_Exchange) -> ?NOT_LOADED.
exchange_progress(_Exchange) -> ?NOT_LOADED.
exchange_left(_Exchange) -> ?NOT_LOADED.
exchange_close(_Exchange) -> ?NOT_LOADED.
drop_sessions(_Replica) -> ?NOT_LOADED.
hints_new() -> ?NOT_LOADED.
hints_restore(_First) -> ?NOT_LOADED.
hints_close(_Hints) -> ?NOT_LOADED.
hint_keep(_Hints, _Owner, _Key, _Version) -> ?NOT_LOADED.
hint_next(_Hints, _Owner, _After) -> ?NOT_LOADED.
hint(_Hints, _Number) -> ?NOT_LOADED.
hint_confirm(_Hints, _Number, _Outcome) -> ?NOT_LOADED.
hints_renew(_Hints) -> ?NOT_LOADED.
hints_count(_Hints) -> ?NOT_LOADED.
hints_bytes(_Hints) -> ?NOT_LOADED.
slots_new(_Floor, _Ceiling, _Threshold) -> ?NOT_LOADED.
slots_close(_Slots) -> ?NOT_LOADED.
slot_lend(_Slots) -> ?NOT_LOADED.
slot_give_back(_Slots) -> ?NOT_LOADED.
slots_sample(_Slots, _Moment, _Micros) -> ?NOT_LOADED.
slots_adjust(_Slots, _Now) -> ?NOT_LOADED.
slots_set_target(_Slots, _Target) -> ?NOT_LOADED.
slots_count(_Slots) -> ?NOT_LOADED.
