%% @doc The metrics of this node as text for Prometheus.
%%
%% All processes are asked for their counts at once, for half a second at most. A process that waits for its disk is
%% left out, and is late in `cluster_late'.
-module(cluster_prometheus).

-export([text/0]).

-define(LIMIT_MS, 500).

-type sample() :: {cluster_metrics:labels(), number()}.
-type metric() :: {Name :: string(), counter | gauge, Help :: string(), [sample()]}.

%% @doc Returns the metrics.
-spec text() -> iodata().
text() ->
    Metrics = counters() ++ gauges() ++ asked(),
    [lists:map(fun metric/1, Metrics), lists:map(fun histogram/1, histograms())].

%% ---- metrics in tables

-spec counters() -> [metric()].
counters() ->
    [
        counter(requests, "Requests of clients by kind, outcome and cause"),
        counter(events, "Events in the log"),
        counter(pulls, "Syncs with a partner by outcome"),
        counter(repair_rounds, "Rounds of repair"),
        counter(repair_keys, "Versions that syncs took"),
        counter(repair_bytes, "Bytes of answers in syncs"),
        counter(hints_refused, "Hints that this node refused, since it had no room")
    ].

counter(Name, Help) ->
    {atom_to_list(Name) ++ "_total", counter, Help, cluster_metrics:values(Name)}.

-spec gauges() -> [metric()].
gauges() ->
    Down = cluster_wire:down(),
    [
        gauge("ready", "1 if clients are served", [{[], number(cluster_life:is_ready())}]),
        gauge("disk_full", "1 if the node is read-only", [{[], number(cluster_space:is_full())}]),
        gauge("place_up", "1 if the last call of a place was answered", [
            {[{place, Place}], number(not lists:member(Place, Down))} || Place <- cluster_ring:others()
        ]),
        gauge("incarnation", "The greatest incarnation of a place that this node knows", [
            {[{place, Place}], Incarnation}
         || Place <- cluster_settings:places(), {ok, Incarnation} <- [cluster_lives:known(Place)]
        ]),
        gauge("snapshot_age_seconds", "Time since the last whole snapshot of a range was on the disk", [
            {Labels, erlang:system_time(second) - Saved} || {Labels, Saved} <- cluster_metrics:values(snapshot_saved)
        ])
    ].

gauge(Name, Help, Samples) ->
    {Name, gauge, Help, Samples}.

number(true) -> 1;
number(false) -> 0.

%% ---- counts of processes

-spec asked() -> [metric()].
asked() ->
    Ranges = cluster_ring:held(),
    Names = [{range, Range} || Range <- Ranges] ++ [hints, slots],
    Tasks = [{Name, cluster_task:start(fun() -> ask(Name) end)} || Name <- Names],
    Until = erlang:monotonic_time(millisecond) + ?LIMIT_MS,
    Answers = [{Name, answer(Task, Until)} || {Name, Task} <- Tasks],
    Sizes = [{Range, Sizes} || {{range, Range}, {ok, Sizes}} <- Answers],
    late(Answers) ++ of_ranges(Sizes) ++
        lists:append([of_hints(Counts) || {hints, {ok, Counts}} <- Answers]) ++
        lists:append([of_slots(Counts) || {slots, {ok, Counts}} <- Answers]).

%% (A node without a life doesn't have these processes.)
ask(Name) ->
    try
        {ok, ask_process(Name)}
    catch
        exit:_ -> none
    end.

ask_process({range, Range}) -> cluster_range:sizes(Range);
ask_process(hints) -> cluster_hints:count();
ask_process(slots) -> cluster_slots:count().

answer({Process, Monitor}, Until) ->
    receive
        {'DOWN', Monitor, process, _, Reason} ->
            case cluster_task:result(metrics, Reason) of
                {ok, Answer} -> Answer;
                crashed -> none
            end
    after max(0, Until - erlang:monotonic_time(millisecond)) ->
        true = demonitor(Monitor, [flush]),
        true = exit(Process, kill),
        late
    end.

late(Answers) ->
    Samples = [{labels(Name), number(Answer =:= late)} || {Name, Answer} <- Answers],
    [gauge("late", "1 if a process waits for its disk", Samples)].

labels({range, Range}) -> [{process, range}, {range, Range}];
labels(Process) -> [{process, Process}].

of_ranges(Sizes) ->
    Of = fun(Name) -> [{[{range, Range}], maps:get(Name, Counts)} || {Range, Counts} <- Sizes] end,
    [
        gauge("entries", "Entries of a range's journal", Of(entries)),
        gauge("entries_limit", "The most entries that it may have", Of(limit)),
        gauge("dirty_nodes", "Nodes of a range's tree that have no digest", Of(dirty)),
        gauge("sessions", "Syncs into a range now", Of(sessions)),
        gauge("queue_length", "Calls that wait for a range", Of(queue)),
        gauge("kept_bytes", "Bytes in memory of a range by part", [
            {[{range, Range}, {part, Part}], Bytes}
         || {Range, #{bytes := Parts}} <- Sizes, {Part, Bytes} <- lists:sort(maps:to_list(Parts))
        ])
    ].

of_hints(#{pending := Pending, delivered := Delivered, bytes := Bytes}) ->
    [
        gauge("hints_pending", "Hints that wait here for other places", [{[], Pending}]),
        gauge("hints_bytes", "Bytes of these hints", [{[], Bytes}]),
        {"hints_delivered_total", counter, "Hints that were delivered", [{[], Delivered}]}
    ].

of_slots(#{target := Target, lent := Lent, waiting := Waiting}) ->
    [
        gauge("slots", "Slots for background work", [{[], Target}]),
        gauge("slots_lent", "Slots that are lent", [{[], Lent}]),
        gauge("slots_waiting", "Background work that waits for a slot", [{[], Waiting}])
    ].

%% ---- the text

metric({Name, Type, Help, Samples}) ->
    [head(Name, Type, Help) | [sample(Name, Labels, integer_to_list(Value)) || {Labels, Value} <- Samples]].

head(Name, Type, Help) ->
    ["# HELP cluster_", Name, $\s, Help, "\n# TYPE cluster_", Name, $\s, atom_to_list(Type), $\n].

sample(Name, Labels, Value) ->
    ["cluster_", Name, labels_text(Labels), $\s, Value, $\n].

labels_text([]) ->
    [];
labels_text(Labels) ->
    [${, lists:join($,, [[atom_to_list(Name), "=\"", label(Value), $"] || {Name, Value} <- Labels]), $}].

label(Value) when is_atom(Value) -> atom_to_list(Value);
label(Value) when is_integer(Value) -> integer_to_list(Value);
label(Value) when is_binary(Value) -> Value.

histograms() ->
    [
        {"request_seconds", "Times of requests of clients", cluster_metrics:histograms(requests)},
        {"fsync_seconds", "Times of syncs of files", cluster_metrics:histograms(fsync)}
    ].

histogram({Name, Help, Histograms}) ->
    [head(Name, histogram, Help) | [histogram(Name, Labels, Histogram) || {Labels, Histogram} <- Histograms]].

histogram(Name, Labels, #{sum_micros := Sum, counts := Counts}) ->
    Bounds = [seconds(Bound) || Bound <- cluster_metrics:bounds_micros()] ++ ["+Inf"],
    {Sums, Total} = lists:mapfoldl(fun(Count, Before) -> {Before + Count, Before + Count} end, 0, Counts),
    [
        [
            sample(Name ++ "_bucket", Labels ++ [{le, list_to_binary(Bound)}], integer_to_list(Below))
         || {Bound, Below} <- lists:zip(Bounds, Sums)
        ],
        sample(Name ++ "_sum", Labels, seconds(Sum)),
        sample(Name ++ "_count", Labels, integer_to_list(Total))
    ].

seconds(Micros) ->
    float_to_list(Micros / 1000000, [{decimals, 6}, compact]).
