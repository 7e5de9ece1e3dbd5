%% @doc Rows of a key at its holders: reads, and read repair (the Dynamo paper, section 4.5).
%%
%% Each row has a process. It waits for the row that the read returned, and if its holder's row differs, both this node
%% and that holder take their missing versions. Equal rows cost no further message. This is done in the background, for
%% a few rows at once. A round of repair does the rest.
-module(cluster_rows).

-export([begin_counter/0, read/3]).

-define(MOST_WRITTEN_BACK, 16).

-record(rows, {
    range :: cluster_ring:range(),
    key :: binary(),
    %% Receives the answers until there are enough.
    alias :: reference(),
    unasked :: [cluster_ring:place()],
    %% Holders that haven't answered.
    asked = [] :: [cluster_ring:place()],
    processes = [] :: [pid()],
    found = [] :: [binary()]
}).

%% @doc Makes the counter of the rows that are written back now.
-spec begin_counter() -> ok.
begin_counter() ->
    persistent_term:put(?MODULE, atomics:new(1, [])).

%% @doc Reads the rows of R holders into this node's range, and returns the versions that it then holds. Refused:
%% `down', what {@link cluster_range:read/4} refuses.
-spec read(cluster_ring:range(), Key :: binary(), R :: pos_integer()) ->
    {ok, [antientropy:version()]} | cluster_refusal:refused().
read(Range, Key, R) ->
    #rows{alias = Alias, processes = Processes, found = Found} = ask_enough(Range, Key, R),
    true = unalias(Alias),
    ok = flush(Alias),
    case cluster_range:read(Range, Key, Found, R) of
        {ok, Versions, Row} ->
            ok = tell(Processes, Row),
            {ok, Versions};
        {error, Name} ->
            ok = tell(Processes, none),
            {refused, Name}
    end.

tell(Processes, Row) ->
    lists:foreach(fun(Process) -> Process ! {merged, Row} end, Processes).

flush(Alias) ->
    receive
        {Alias, _, _} -> flush(Alias)
    after 0 -> ok
    end.

%% ---- the read's process

%% Asks the holders that are up. If they are too few, asks the others as well.
ask_enough(Range, Key, R) ->
    {Up, Down} = lists:partition(fun cluster_wire:is_up/1, cluster_ring:partners(Range)),
    Rows = #rows{range = Range, key = Key, alias = alias(), unasked = Down},
    case is_enough(length(Up), Range, R) of
        true -> gather(ask(Up, Rows), R);
        false -> gather(ask(Up ++ Down, Rows#rows{unasked = []}), R)
    end.

%% Returns true if R rows can be read. The range of a new life may not count as one of them yet.
is_enough(Count, Range, R) ->
    Count >= R orelse (Count + 1 >= R andalso cluster_range:is_joined(Range)).

ask(Holders, #rows{range = Range, key = Key, alias = Alias, asked = Asked, processes = Processes} = Rows) ->
    More = [spawn(fun() -> row(Alias, Range, Key, Holder) end) || Holder <- Holders],
    Rows#rows{asked = Holders ++ Asked, processes = More ++ Processes}.

gather(#rows{range = Range, alias = Alias, asked = Asked, found = Found} = Rows, R) ->
    case is_enough(length(Found), Range, R) of
        true ->
            Rows;
        false when Asked =:= [] ->
            gather_others(Rows, R);
        false ->
            receive
                {Alias, Holder, none} -> gather(Rows#rows{asked = Asked -- [Holder]}, R);
                {Alias, Holder, Row} -> gather(Rows#rows{asked = Asked -- [Holder], found = [Row | Found]}, R)
            after wait_ms(Rows) -> gather_others(Rows, R)
            end
    end.

%% Asks the holders that are down, as a last resort.
gather_others(#rows{unasked = []} = Rows, _) -> Rows;
gather_others(#rows{unasked = Down} = Rows, R) -> gather(ask(Down, Rows#rows{unasked = []}), R).

%% Returns the time to wait. Once all holders are asked, those that are up have the time limit of a call.
wait_ms(#rows{unasked = Unasked, asked = Asked}) ->
    case Unasked =:= [] andalso lists:any(fun cluster_wire:is_up/1, Asked) of
        true -> cluster_wire:limit_ms();
        false -> lists:max([cluster_patience:ms(Holder, {cluster_range, row}) || Holder <- Asked])
    end.

%% ---- the process of a row

row(Alias, Range, Key, Holder) ->
    try
        take_row(Alias, Range, Key, Holder)
    catch
        _:Reason ->
            crashed = cluster_task:crashed(rows, Reason),
            Alias ! {Alias, Holder, none}
    end.

take_row(Alias, Range, Key, Holder) ->
    case cluster_wire:call(Holder, cluster_range, row, [Range, Key]) of
        {ok, {ok, Row}} ->
            Alias ! {Alias, Holder, Row},
            cluster_settings:is_read_repair_on() andalso repair(Range, Key, Holder, Row);
        _ ->
            Alias ! {Alias, Holder, none}
    end.

repair(Range, Key, Holder, Row) ->
    receive
        {merged, Row} -> ok;
        {merged, none} -> ok;
        {merged, _} -> if_few_do(fun() -> write_back(Range, Key, Holder, Row) end)
    after cluster_wire:limit_ms() -> ok
    end.

if_few_do(Repair) ->
    Counter = persistent_term:get(?MODULE),
    atomics:add_get(Counter, 1, 1) =< ?MOST_WRITTEN_BACK andalso Repair(),
    atomics:sub(Counter, 1, 1).

%% Exchanges rows with a holder. Each of the two nodes may have versions that the other one is missing.
write_back(Range, Key, Holder, Row) ->
    case cluster_range:take_row(Range, Key, Row) of
        {ok, Row} -> ok;
        {ok, Merged} -> cluster_wire:call(Holder, cluster_range, take_row, [Range, Key, Merged]);
        {error, _} -> ok
    end.
