%% @doc The lives of all places that this place knows of, in the file `lives': the greatest incarnation of each.
%%
%% A life is the number of a disk in clocks: its place, and 32 times its incarnation, from 1 to 2,047. A place learns
%% incarnations when another place announces its new life, and from the clocks that it stores. They are on its disk
%% before anything relies on them.
-module(cluster_lives).
-behaviour(gen_server).

-export([number/2, place/1, incarnation/1, greatest/0]).
-export([start_link/0, state/0, begin_anew/0, known/1, learn/1, learn_from/1]).
-export([init/1, handle_call/3, handle_cast/2, handle_info/2]).

-export_type([incarnation/0, life/0]).

-define(FILE_NAME, "lives").
-define(PLACES, 32).
-define(GREATEST, 2047).

-type incarnation() :: 0..?GREATEST.
%% 0: no life has begun.
-type life() :: pos_integer().

%% @doc Returns the number of a life in clocks.
-spec number(cluster_ring:place(), incarnation()) -> life().
number(Place, Incarnation) ->
    Place + ?PLACES * Incarnation.

%% @doc Returns the place of a life.
-spec place(life()) -> cluster_ring:place().
place(Life) ->
    Life rem ?PLACES.

%% @doc Returns the incarnation of a life.
-spec incarnation(life()) -> incarnation().
incarnation(Life) ->
    Life div ?PLACES.

%% @doc Returns the greatest incarnation that a place may have.
-spec greatest() -> incarnation().
greatest() ->
    ?GREATEST.

%% @doc Starts the process that writes the file.
-spec start_link() -> {ok, pid()} | {error, term()}.
start_link() ->
    gen_server:start_link({local, ?MODULE}, ?MODULE, cluster_settings:folder(), []).

%% @doc Returns the state of the file. Until it is whole, the place knows nothing.
-spec state() -> whole | missing | damaged.
state() ->
    case persistent_term:get(?MODULE) of
        Lives when is_map(Lives) -> whole;
        State -> State
    end.

%% @doc Writes a new file, unless it is whole: a damaged file has been kept aside, or there was none.
-spec begin_anew() -> ok | {error, disk_full}.
begin_anew() ->
    gen_server:call(?MODULE, begin_anew, infinity).

%% @doc Returns the greatest incarnation that this place knows for a place. Refused: `starting' (the file isn't whole).
-spec known(cluster_ring:place()) -> {ok, incarnation()} | {error, starting}.
known(Place) ->
    case persistent_term:get(?MODULE) of
        Lives when is_map(Lives) -> {ok, maps:get(Place, Lives, 0)};
        _ -> {error, starting}
    end.

%% @doc Brings incarnations that are greater than the known ones to the disk. Refused: `starting', `disk_full'.
-spec learn([{cluster_ring:place(), incarnation()}]) -> ok | {error, starting | disk_full}.
learn(Incarnations) ->
    gen_server:call(?MODULE, {learn, Incarnations}, infinity).

%% @doc Learns from clocks, before they are stored. Refused: `disk_full'.
-spec learn_from([antientropy:clock()]) -> ok | {error, starting | disk_full}.
learn_from(Clocks) ->
    Known = persistent_term:get(?MODULE),
    case [Life || Clock <- Clocks, Life <- lives(Clock), is_news(Life, Known)] of
        [] -> ok;
        News -> learn(News)
    end.

lives(Clock) ->
    [{Number rem ?PLACES, Number div ?PLACES} || Number <- maps:keys(Clock)].

is_news({Place, Incarnation}, Known) ->
    Incarnation > maps:get(Place, Known, 0).

%% @private
init(Folder) ->
    File = filename:join(Folder, ?FILE_NAME),
    State =
        case cluster_disk:read_term(File) of
            {ok, {lives, Lives}} -> Lives;
            missing -> missing;
            _ -> damaged
        end,
    ok = persistent_term:put(?MODULE, State),
    {ok, File}.

%% @private
handle_call(begin_anew, _, File) ->
    Begun =
        case state() of
            whole -> ok;
            _ -> replace(File, #{})
        end,
    {reply, Begun, File};
handle_call({learn, Incarnations}, _, File) ->
    Learnt =
        case persistent_term:get(?MODULE) of
            Known when is_map(Known) -> learn(File, Known, Incarnations);
            _ -> {error, starting}
        end,
    {reply, Learnt, File};
handle_call(Request, _, File) ->
    {reply, cluster_stray:call(?MODULE, Request), File}.

%% @private
handle_cast(Message, File) ->
    ok = cluster_stray:message(?MODULE, Message),
    {noreply, File}.

%% @private
handle_info(Message, File) ->
    ok = cluster_stray:message(?MODULE, Message),
    {noreply, File}.

learn(File, Known, Incarnations) ->
    case lists:foldl(fun with_greater/2, Known, Incarnations) of
        Known -> ok;
        Lives -> replace(File, Lives)
    end.

with_greater({Place, Incarnation}, Lives) ->
    Lives#{Place => max(Incarnation, maps:get(Place, Lives, 0))}.

replace(File, Lives) ->
    case cluster_disk:write_term(File, {lives, Lives}) of
        ok ->
            persistent_term:put(?MODULE, Lives);
        full ->
            ok = cluster_space:full(),
            {error, disk_full}
    end.
