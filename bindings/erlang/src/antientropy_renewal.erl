%% @doc A renewal that {@link antientropy:renewal/2} has made. It takes effect when its program finishes it.
%%
%% The program writes all entries to its log between the two calls, and the log continues at its position. A renewal
%% keeps its replica. After {@link close/1} it is refused as `empty'. {@link antientropy:renew_in_place/2} is a whole
%% renewal in one call.
-module(antientropy_renewal).

-export([finish/1, close/1]).
-export([make/2, renew_in_place/2, renew_if_due/1]).

-import(antientropy_call, [result/1]).

-export_type([renewal/0]).

%% Entries that a step accepts at first, and the most that are left to the last step.
-define(FEW, 64).
%% Entries that a step accepts in some milliseconds.
-define(MANY, 1024).

-opaque renewal() :: reference().

%% @doc Puts the new replica in the place of the old one, under the same handle.
%%
%% It accepts the entries since the renewal was made, in steps, so that other calls don't wait for all of them. The
%% renewal then holds the old replica until it is closed. Refused: `stale' (the replica was renewed or migrated
%% meanwhile), `journal_full' (more versions were accepted than the limit allows). A refused call leaves the replica
%% unchanged.
-spec finish(renewal()) -> ok | antientropy:refused().
finish(Renewal) ->
    case catch_up(Renewal) of
        ok -> result(antientropy_nif:renewal_finish(Renewal));
        Refused -> Refused
    end.

%% @doc Frees the new replica if it isn't in the place of the old one, or the old one. A thread does that.
-spec close(renewal()) -> ok.
close(Renewal) ->
    result(antientropy_nif:renewal_close(Renewal)).

%% @private
%% @doc Makes a renewal: programs call {@link antientropy:renewal/2}.
-spec make(antientropy:replica(), Limit :: pos_integer()) -> {ok, renewal()} | antientropy:refused().
make(Replica, Limit) ->
    case result(antientropy_nif:renewal(Replica)) of
        {ok, Renewal} -> made(Renewal, build(Renewal, Limit));
        Refused -> Refused
    end.

made(Renewal, ok) ->
    {ok, Renewal};
made(Renewal, Refused) ->
    ok = close(Renewal),
    Refused.

%% @private
%% @doc Renews a replica in its place: programs call {@link antientropy:renew_in_place/2}.
-spec renew_in_place(antientropy:replica(), Limit :: pos_integer()) -> ok | antientropy:refused().
renew_in_place(Replica, Limit) ->
    case make(Replica, Limit) of
        {ok, Renewal} -> finished(Renewal);
        Refused -> Refused
    end.

finished(Renewal) ->
    Result = finish(Renewal),
    ok = close(Renewal),
    Result.

%% @private
%% @doc Renews a replica that is kept renewed, if that is due and no other process does: {@link antientropy_call} starts
%% it.
-spec renew_if_due(antientropy:replica()) -> ok | antientropy:refused().
renew_if_due(Replica) ->
    case result(antientropy_nif:due_renewal(Replica)) of
        {ok, Renewal, Limit} ->
            case made(Renewal, build(Renewal, Limit)) of
                {ok, Renewal} -> finished(Renewal);
                Refused -> Refused
            end;
        Other ->
            Other
    end.

%% Makes the new replica from the rows of a moment, and accepts most entries since.
build(Renewal, Limit) ->
    Begin = fun(From, Most) -> antientropy_nif:renewal_of_moment(Renewal, Limit, From, Most) end,
    Build = fun() -> result(antientropy_nif:renewal_build(Renewal)) end,
    in_turn(antientropy_moment:whole(Begin), [Build, fun() -> catch_up(Renewal) end]).

%% Makes calls in turn until one is refused.
in_turn(ok, [Call | Calls]) -> in_turn(Call(), Calls);
in_turn(Result, _) -> Result.

%% Accepts entries in steps until few are left. Other calls pass the gate between two steps. The next step is twice as
%% large if these put more than a sixteenth of its entries, and over ?MANY if they put more than it accepted.
catch_up(Renewal) ->
    catch_up(Renewal, ?FEW, infinity).

catch_up(Renewal, Most, Before) ->
    case result(antientropy_nif:renewal_catch_up(Renewal, Most)) of
        {ok, Left} when Left =< ?FEW -> ok;
        {ok, Left} -> catch_up(Renewal, next_most(Most, put_since(Before, Left + Most)), Left);
        Refused -> Refused
    end.

put_since(infinity, _) -> 0;
put_since(Before, Left) -> Left - Before.

%% The size of the next step, after others have put a number of entries.
next_most(Most, Put) when Put > Most -> 2 * Most;
next_most(Most, Put) when 16 * Put > Most, Most < ?MANY -> 2 * Most;
next_most(Most, _) -> Most.
