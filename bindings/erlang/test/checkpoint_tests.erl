%% Checkpoints: saved, loaded, truncated and changed.
-module(checkpoint_tests).

-include_lib("eunit/include/eunit.hrl").

-import(support, [replica/1, flip/2]).

%% A test has a replica of three versions, and its checkpoint.
checkpoints_test_() ->
    {setup, fun setup/0, {with, [
        fun save_and_load/1,
        fun log_after_the_checkpoint/1,
        fun file_on_a_disk/1,
        fun truncated/1,
        fun too_long/1,
        fun changed_head/1,
        fun changed_rows/1,
        fun huge_length/1,
        fun another_leaf/1,
        fun limit/1
    ]}}.

setup() ->
    Replica = replica(#{limit => 1000}),
    {ok, _} = antientropy:put(Replica, 1, <<"cart">>, binary:copy(<<"milk">>, 1000)),
    {ok, _} = antientropy:accept(Replica, <<"cart">>, support:live(#{2 => 1}, <<"eggs">>)),
    {ok, _} = antientropy:put(Replica, 1, <<"list">>, tombstone),
    {Replica, saved(Replica)}.

%% The checkpoint of a replica. Its file is in memory.
saved(Replica) ->
    {ok, File} = file:open(<<>>, [ram, binary, read, write]),
    {ok, #{entries := Entries}} = antientropy:count(Replica),
    ?assertEqual({ok, Entries}, antientropy:save(Replica, File)),
    {ok, Length} = file:position(File, cur),
    {ok, Saved} = file:pread(File, 0, Length),
    ok = file:close(File),
    Saved.

load(Saved) ->
    load(Saved, 1_000_000).

load(Saved, Limit) ->
    {ok, File} = file:open(Saved, [ram, binary, read]),
    Result = antientropy:load(File, Limit),
    ok = file:close(File),
    Result.

damaged(Damage, Saved) ->
    ?assertEqual({error, {damaged, Damage}}, load(Saved)).

%% Returns the place of bytes in a checkpoint.
place(Bytes, Saved) ->
    {Place, _} = binary:match(Saved, Bytes),
    Place.

checkpoint_of_the_page_test() ->
    Replica = replica(#{format => 1}),
    {ok, _} = antientropy:put(Replica, 1, <<"a">>, <<"x">>),
    Root = <<16#bcf422e0df449d89564e74e43e2f066e3f948254e49cd9f115f866907188dc49:256>>,
    Row = <<16#000161000101000100000000000000010000000178:168>>,
    Page = [<<"antient", 1, 1, 0, 0:16>>, Root, <<0:(12 * 64)>>, <<21:64>>, Row, <<0:(243 * 64)>>],
    ?assertEqual(2113, iolist_size(Page)),
    ?assertEqual(iolist_to_binary(Page), saved(Replica)).

range_of_the_file_test() ->
    Saved = saved(replica(#{bits => 4, range => 9})),
    ?assertMatch(<<"antient", 1, 2, 4, 9:16, _/binary>>, Saved),
    {ok, Loaded} = load(Saved),
    ?assertEqual({ok, #{format => 2, bits => 4, range => 9}}, antientropy:info(Loaded)).

last_range_test() ->
    {ok, Loaded} = load(saved(replica(#{bits => 8, range => 255}))),
    ?assertEqual({ok, #{format => 2, bits => 8, range => 255}}, antientropy:info(Loaded)).

save_and_load({Replica, Saved}) ->
    {ok, Loaded} = load(Saved),
    ?assertEqual(antientropy:root(Replica), antientropy:root(Loaded)),
    ?assertEqual(antientropy:get(Replica, <<"cart">>), antientropy:get(Loaded, <<"cart">>)),
    {ok, Counts} = antientropy:count(Loaded),
    ?assertMatch(#{entries := 3, limit := 1_000_000, dirty := 0, sessions := 0, open_sessions := 0}, Counts),
    {ok, Small} = load(Saved, 7),
    ?assertMatch({ok, #{limit := 7}}, antientropy:count(Small)).

log_after_the_checkpoint({_, Saved}) ->
    {ok, Replica} = load(Saved),
    {ok, File} = file:open(<<>>, [ram, binary, read, write]),
    {ok, Logged} = antientropy:save(Replica, File),
    {ok, _} = antientropy:put(Replica, 1, <<"later">>, <<>>),
    ?assertMatch({ok, [#{key := <<"later">>}]}, antientropy:entries(Replica, Logged)).

file_on_a_disk({Replica, Saved}) ->
    Path = filename:join(os:getenv("ANTIENTROPY_ROOM", "/tmp"), "checkpoint"),
    {ok, Written} = file:open(Path, [raw, binary, write, delayed_write]),
    {ok, 3} = antientropy:save(Replica, Written),
    ok = file:close(Written),
    ?assertEqual({ok, Saved}, file:read_file(Path)),
    {ok, Read} = file:open(Path, [raw, binary, read, read_ahead]),
    {ok, Loaded} = antientropy:load(Read),
    ?assertEqual(antientropy:root(Replica), antientropy:root(Loaded)),
    ?assertMatch({error, {file, _}}, antientropy:save(Replica, Read)),
    ok = file:close(Read),
    ?assertEqual({error, {file, einval}}, antientropy:load(Read)),
    ok = file:delete(Path).

truncated({_, Saved}) ->
    [
        damaged(truncated, binary:part(Saved, 0, Length))
     || Length <- [0, 7, 43, 44, 50, byte_size(Saved) div 2, byte_size(Saved) - 1]
    ].

too_long({_, Saved}) ->
    damaged(too_long, <<Saved/binary, 0>>).

changed_head({_, Saved}) ->
    [damaged(not_checkpoint, flip(Saved, Place)) || Place <- lists:seq(0, 8)],
    [?assertEqual({error, bad_ring}, load(flip(Saved, Place))) || Place <- [9, 10, 11]],
    damaged(root, flip(Saved, 20)).

changed_rows({_, Saved}) ->
    {ok, #{leaf := Leaf}} = antientropy:place(2, 0, <<"cart">>),
    damaged(root, flip(Saved, place(<<"eggs">>, Saved))),
    damaged({leaf, Leaf}, flip(Saved, place(<<"cart">>, Saved) - 1)).

huge_length({_, <<Head:44/binary, _:8/binary, Leaves/binary>>}) ->
    damaged(truncated, <<Head/binary, (1 bsl 64 - 1):64, Leaves/binary>>).

%% Rows of two leaves are refused.
another_leaf({Replica, <<Head:44/binary, _/binary>>}) ->
    Rows = [element(2, antientropy:row(Replica, Key)) || Key <- [<<"cart">>, <<"list">>]],
    damaged({leaf, 0}, iolist_to_binary([Head, <<(iolist_size(Rows)):64>>, Rows])).

limit({_, Saved}) ->
    ?assertEqual({error, journal_full}, load(Saved, 2)),
    ?assertEqual({error, bad_ring}, load(Saved, 0)).
