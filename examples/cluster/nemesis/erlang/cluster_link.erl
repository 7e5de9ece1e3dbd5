%% @doc All messages between nodes, with the faults of a nemesis: this module is loaded in place of the product's.
%%
%% A file, which the environment names, has the faults of all nodes. A fault is in force some milliseconds after the
%% file was replaced. Its lines are
%%
%%     drop FROM TO              messages from a place to another are dropped
%%     instant                   a dropped message is an error at once, as on a link that is known to be down
%%     late FROM TO LEAST MOST   a message is late by a random time, in milliseconds, mostly a short one
%%     repeat MANY               MANY of 1,000 calls are served again in the next second, and that answer is dropped
%%     limit MS                  a call has at least this time, on a busy machine
%%
%% Without `instant' a dropped message is silence: its call waits for its limit. Late messages overtake each other, and
%% a call may be served after its caller has given up.
%%
%% Another file, which the environment names as well, gets a line for each call of background work whose process doesn't
%% have a slot.
-module(cluster_link).

-export([call/5]).
-export([serve/7]).

-define(FAULTS, "NEMESIS_LINKS").
-define(UNSLOTTED, "NEMESIS_UNSLOTTED").
%% Time between two looks at the file.
-define(LOOK_MS, 3).
%% Most messages of a link that is late by 0 to 2,000 milliseconds are late by less than 40, and a fifth by over 500.
-define(SKEW, 6).
-define(AGAIN_MS, 1000).
%% Calls of background work: offers for a repair, and copies for a hand-off.
-define(BACKGROUND, [{cluster_range, offer}, {cluster_range, copies}]).

-type ms() :: non_neg_integer().
-type link() :: {From :: cluster_ring:place(), To :: cluster_ring:place()}.
-type faults() :: #{
    drop := [link()],
    late := #{link() => {Least :: ms(), Most :: ms()}},
    repeat := 0..1000,
    limit := ms(),
    instant := boolean()
}.

%% @doc Calls a function at another place, and raises as {@link erpc:call/5} does. A message is dropped before its call
%% is served, and an answer before it is used.
-spec call(cluster_ring:place(), module(), Function :: atom(), Arguments :: [term()], LimitMs :: ms()) -> term().
call(Place, Module, Function, Arguments, ItsLimitMs) ->
    Here = cluster_ring:here(),
    #{limit := LeastMs} = faults(),
    LimitMs = max(ItsLimitMs, LeastMs),
    Until = erlang:monotonic_time(millisecond) + LimitMs,
    ok = note_unslotted(Here, Module, Function),
    ok = pass({Here, Place}, Until),
    Served = [Here, Place, cluster_ring:digest(), Module, Function, Arguments, LimitMs],
    Answer = erpc:call(cluster_ring:node_of(Place), ?MODULE, serve, Served, LimitMs),
    ok = pass({Place, Here}, Until),
    Answer.

%% Raises an error if messages of a link are dropped: when the call's time is over, or at once.
pass(Link, Until) ->
    #{drop := Drops, instant := IsInstant} = faults(),
    case {lists:member(Link, Drops), IsInstant} of
        {false, _} ->
            ok;
        {true, true} ->
            erlang:error({erpc, noconnection});
        {true, false} ->
            timer:sleep(max(0, Until - erlang:monotonic_time(millisecond))),
            erlang:error({erpc, timeout})
    end.

%% @private
%% @doc Serves a call of another place. Ends without an answer if the message is dropped: its caller has then given up,
%% or learns it at once.
-spec serve(cluster_ring:place(), cluster_ring:place(), Digest :: binary(), module(), Function, Arguments, ms()) ->
    term() when
    Function :: atom(), Arguments :: [term()].
serve(From, Here, Digest, Module, Function, Arguments, LimitMs) ->
    #{drop := Drops, instant := IsInstant} = Faults = faults(),
    ok = delay({From, Here}, Faults),
    case lists:member({From, Here}, Drops) of
        true ->
            IsInstant orelse timer:sleep(LimitMs),
            exit(dropped);
        false ->
            ok = repeat([From, Digest, Module, Function, Arguments], Faults),
            Answer = cluster_wire:serve(From, Digest, Module, Function, Arguments),
            ok = delay({Here, From}, faults()),
            Answer
    end.

delay(Link, #{late := Late}) ->
    case Late of
        #{Link := {Most, Most}} -> timer:sleep(Most);
        #{Link := {Least, Most}} -> timer:sleep(Least + round((Most - Least) * math:pow(rand:uniform(), ?SKEW)));
        _ -> ok
    end.

repeat(Call, #{repeat := Many}) ->
    case Many > 0 andalso rand:uniform(1000) =< Many of
        true -> serve_later(Call);
        false -> ok
    end.

serve_later(Call) ->
    _ = spawn(fun() ->
        timer:sleep(rand:uniform(?AGAIN_MS)),
        catch apply(cluster_wire, serve, Call)
    end),
    ok.

note_unslotted(Here, Module, Function) ->
    IsBackground = lists:member({Module, Function}, ?BACKGROUND),
    case IsBackground andalso not lists:member(self(), cluster_slots:holders()) of
        true ->
            File = os:getenv(?UNSLOTTED) ++ "-" ++ integer_to_list(Here),
            ok = file:write_file(File, [atom_to_list(Function), "\n"], [append, raw]);
        false ->
            ok
    end.

%% Returns the faults that the file has now, or had some milliseconds ago.
-spec faults() -> faults().
faults() ->
    Now = erlang:monotonic_time(millisecond),
    case persistent_term:get(?MODULE, none) of
        none ->
            read({none, none, atomics:new(1, [{signed, true}])}, Now);
        {_, Faults, Looked} = Last ->
            case Now - atomics:get(Looked, 1) < ?LOOK_MS of
                true -> Faults;
                false -> read(Last, Now)
            end
    end.

read({Before, Faults, Looked}, Now) ->
    ok = atomics:put(Looked, 1, Now),
    case prim_file:read_file(os:getenv(?FAULTS)) of
        {ok, Before} ->
            Faults;
        {ok, Text} ->
            None = #{drop => [], late => #{}, repeat => 0, limit => 0, instant => false},
            New = lists:foldl(fun add/2, None, lines(Text)),
            ok = persistent_term:put(?MODULE, {Text, New, Looked}),
            New
    end.

lines(Text) ->
    [string:lexemes(Line, " ") || Line <- string:lexemes(binary_to_list(Text), "\n")].

add(["drop", From, To], #{drop := Drops} = Faults) ->
    Faults#{drop := [link(From, To) | Drops]};
add(["late", From, To, Least, Most], #{late := Late} = Faults) ->
    Faults#{late := Late#{link(From, To) => {list_to_integer(Least), list_to_integer(Most)}}};
add(["repeat", Many], Faults) ->
    Faults#{repeat := list_to_integer(Many)};
add(["limit", LeastMs], Faults) ->
    Faults#{limit := list_to_integer(LeastMs)};
add(["instant"], Faults) ->
    Faults#{instant := true}.

link(From, To) ->
    {list_to_integer(From), list_to_integer(To)}.
