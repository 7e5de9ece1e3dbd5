%% @doc The choice of a new incarnation of this place, by all places.
%%
%% It is one more than the greatest that any place knows for this place. All others must answer, or an operator names
%% it. Before its first use it is on the disks of all others, or of those that answer if an operator named it.
-module(cluster_incarnation).

-export([take/1]).

-define(AGAIN_MS, 1000).
%% Tries before a silent place is logged: places that start at once wait for each other a little.
-define(QUICK_TRIES, 15).
-define(QUICK_MS, 200).

%% @doc Takes an incarnation as soon as possible. `Named' is an operator's choice, or `none'. The node ends if it is
%% refused.
-spec take(Named :: pos_integer() | none) -> cluster_lives:incarnation().
take(Named) ->
    Others = cluster_ring:others(),
    Ask = fun(Place) -> cluster_wire:call(Place, cluster_lives, known, [cluster_ring:here()]) end,
    Answers = until_enough(fun() -> gather(Ask, Others) end, Named, length(Others), 1),
    {ok, Own} = cluster_lives:known(cluster_ring:here()),
    Incarnation = choose(Named, lists:max([Own | [Known || {_, Known} <- Answers]])),
    Learn = [{cluster_ring:here(), Incarnation}],
    ok = until_there_is_room(fun() -> cluster_lives:learn(Learn) end),
    Tell = fun(Place) -> cluster_wire:call(Place, cluster_lives, learn, [Learn]) end,
    _ = until_enough(fun() -> gather(Tell, Others) end, Named, length(Others), 1),
    Incarnation.

choose(none, Known) ->
    within_range(Known + 1);
choose(Named, Known) when Named > Known ->
    within_range(Named);
choose(Named, Known) ->
    refuse("the incarnation ~b of place ~b is refused: ~b has begun", [Named, cluster_ring:here(), Known]).

within_range(Incarnation) ->
    case Incarnation =< cluster_lives:greatest() of
        true ->
            Incarnation;
        false ->
            refuse("place ~b had its last life: ~b incarnations are the most", [
                cluster_ring:here(), cluster_lives:greatest()
            ])
    end.

-spec refuse(io:format(), [term()]) -> no_return().
refuse(Format, Arguments) ->
    cluster_app:refuse(io_lib:format(Format, Arguments)).

%% Calls all places at once, and returns those that answered.
gather(Call, Places) ->
    Calls = [{Place, cluster_task:start(fun() -> Call(Place) end)} || Place <- Places],
    lists:append([answer(Place, Monitor) || {Place, {_, Monitor}} <- Calls]).

answer(Place, Monitor) ->
    receive
        {'DOWN', Monitor, process, _, Reason} ->
            case cluster_task:result(incarnation, Reason) of
                {ok, {ok, ok}} -> [{Place, 0}];
                {ok, {ok, {ok, Known}}} -> [{Place, Known}];
                _ -> []
            end
    end.

%% Tries again until all places answer. If an operator named an incarnation, those that answer are enough.
until_enough(Gather, Named, Count, Try) ->
    Answers = Gather(),
    case Named =/= none orelse length(Answers) =:= Count of
        true ->
            Answers;
        false ->
            Try =:= ?QUICK_TRIES andalso say_who_is_silent([Place || {Place, _} <- Answers]),
            timer:sleep(if Try < ?QUICK_TRIES -> ?QUICK_MS; true -> ?AGAIN_MS end),
            until_enough(Gather, Named, Count, Try + 1)
    end.

say_who_is_silent(Answering) ->
    Silent = lists:join(", ", [integer_to_list(Place) || Place <- cluster_ring:others() -- Answering]),
    Format = "place ~b waits for a new life until all places answer (the setting incarnation names one): not ~ts~n",
    io:format(standard_error, Format, [cluster_ring:here(), Silent]).

until_there_is_room(Try) ->
    case Try() of
        ok ->
            ok;
        {error, disk_full} ->
            timer:sleep(?AGAIN_MS),
            until_there_is_room(Try)
    end.
