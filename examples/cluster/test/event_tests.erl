%% @doc Events, a line for each, once, and metrics that wait for no disk.
-module(event_tests).

-include_lib("eunit/include/eunit.hrl").

%% The range 0 is held by the places 1, 2 and 3.
-define(RANGE, 0).
-define(VERSION, #{clock => #{34 => 1}, value => <<"value">>}).

line_test_() ->
    Line = fun(Name, Fields) -> lists:flatten(unicode:characters_to_list(cluster_event:line(Name, Fields))) end,
    room:plain(fun() ->
        ?assertEqual("event down place=3", Line(down, [{place, 3}])),
        Quoted = "event sync_failed cause=bad why=\"a \\\"b\\\"\\n\"",
        ?assertEqual(Quoted, Line(sync_failed, [{cause, bad}, {why, "a \"b\"\n"}]))
    end).

%% An event is a line of the log, with the level and nothing else.
format_test_() ->
    Event = #{level => notice, msg => {report, #{event => up, fields => [{place, 2}]}}, meta => #{}},
    room:plain(fun() ->
        ?assertEqual("notice: event up place=2\n", lists:flatten(cluster_report:format(Event, #{})))
    end).

%% A place is reported down or up once, however many calls show it.
down_test_() ->
    Other = fun(2, _, _, [IsUp]) -> IsUp orelse error({erpc, noconnection}) end,
    with(Other, fun() ->
        Call = fun(IsUp) -> cluster_wire:call(2, a_module, a_function, [IsUp]) end,
        _ = room:all_at_once(Call, lists:duplicate(20, false)),
        ?assertEqual(#{down => 1}, events()),
        _ = room:all_at_once(Call, lists:duplicate(20, true)),
        ?assertEqual(#{down => 1, up => 1}, events())
    end).

%% A full queue of hints is logged once, until it has delivered one.
hints_test_() ->
    Bytes = erlang:external_size({room:key(1), #{34 => 1}, <<"value">>}),
    room:test([{hint_bytes, Bytes}], fun(_) ->
        {ok, Hints} = cluster_hints:start_link(),
        true = unlink(Hints),
        Keep = fun() -> cluster_hints:keep(2, ?RANGE, room:key(1), ?VERSION) end,
        {ok, First} = Keep(),
        [{error, hints_full} = Keep() || _ <- [1, 2, 3]],
        ?assertEqual(#{hints_refused => 1}, events()),
        ?assertEqual([{[], 3}], cluster_metrics:values(hints_refused)),
        ok = cluster_hints:confirm(2, ?RANGE, [{First, new}]),
        {ok, _} = Keep(),
        {error, hints_full} = Keep(),
        ?assertEqual(#{hints_refused => 2}, events())
    end).

%% A checkpoint and a renewal have a line each, and a checkpoint has a time.
range_test_() ->
    room:test([{limit, 40}, {checkpoint_entries, 30}], fun(_) ->
        {ok, Range} = cluster_range:start_link(?RANGE),
        true = unlink(Range),
        Put = fun(_, Context) ->
            {ok, #{clock := Clock}} = cluster_range:put(?RANGE, room:key(1), <<"value">>, Context),
            Clock
        end,
        Begun = erlang:system_time(second),
        _ = lists:foldl(Put, #{}, lists:seq(1, 40)),
        room:until(fun() -> events() =:= #{checkpoint => 1, renewal => 1} end),
        [{[{range, ?RANGE}], Saved}] = cluster_metrics:values(snapshot_saved),
        %% (A file system's clock may be behind by a part of a second.)
        ?assert(Begun - 1 =< Saved andalso Saved =< erlang:system_time(second)),
        %% It is known after a start, too.
        ok = room:kill(cluster_range_0),
        true = ets:delete_all_objects(cluster_metrics),
        {ok, Again} = cluster_range:start_link(?RANGE),
        true = unlink(Again),
        ?assertEqual([{[{range, ?RANGE}], Saved}], cluster_metrics:values(snapshot_saved))
    end).

%% A sync that fails is logged once, and counted each time.
sync_test_() ->
    {ok, Empty} = antientropy:new(#{format => 2, bits => 2, range => ?RANGE}),
    Other = fun
        (2, cluster_range, offer, [?RANGE, 1]) ->
            {ok, new} = accepted(Empty),
            {ok, Snapshot} = antientropy:snapshot(Empty),
            antientropy_snapshot:offer(Snapshot, 1);
        (2, cluster_range, serve, [?RANGE | _]) ->
            [{ok, <<"no answer">>}];
        (_, _, _, _) ->
            error({erpc, noconnection})
    end,
    with(Other, fun() ->
        [{ok, _} = Module:start_link() || Module <- [cluster_slots, cluster_repair]],
        {ok, Range} = cluster_range:start_link(?RANGE),
        true = unlink(Range),
        [?assert(lists:member({?RANGE, 2}, cluster_repair:round())) || _ <- [1, 2]],
        ?assertMatch(#{sync_failed := 1}, events()),
        Failed = [{Cause, Count} || {[{outcome, Cause}], Count} <- cluster_metrics:values(pulls), Cause =/= down],
        ?assertMatch([{_, 2}], Failed),
        [ok = room:kill(Name) || Name <- [cluster_repair, cluster_slots]]
    end).

accepted(Replica) ->
    case antientropy:accept(Replica, room:key(1), ?VERSION) of
        {ok, _} -> {ok, new}
    end.

%% A range that waits for its disk is late, and nothing else waits for it.
late_test_() ->
    room:test([], fun(_) ->
        {ok, Range} = cluster_range:start_link(?RANGE),
        true = unlink(Range),
        ok = room:until(fun() -> has_line("cluster_entries{range=\"0\"} 0") end),
        ok = sys:suspend(Range),
        ?assert(has_line("cluster_late{process=\"range\",range=\"0\"} 1")),
        ?assertMatch({200, _, _}, cluster_http:health()),
        ok = sys:resume(Range),
        ok = room:until(fun() -> has_line("cluster_late{process=\"range\",range=\"0\"} 0") end)
    end).

has_line(Line) ->
    lists:member(Line, string:lexemes(unicode:characters_to_list(cluster_prometheus:text()), "\n")).

%% Runs a test, in which calls of other places are calls of a function. No place is called again by itself.
with(Other, Test) ->
    room:test([], fun(_) ->
        ok = room:kill(cluster_wire),
        links:with(Other, Test)
    end).

events() ->
    maps:from_list([{Event, Count} || {[{event, Event}], Count} <- cluster_metrics:values(events)]).
