%% @doc The judgement of a holder that reports that it already knows the version of a put.
%%
%% It counts toward W only if its row shows the version, or covers it by versions that the coordinator has accepted.
%% Otherwise the coordinator may have forgotten versions that it made, and would use their counters again.
-module(cluster_known).

-export([judge/5]).

%% @doc Judges the versions that a holder returned for a version that was put under a life. `Own' are the coordinator's
%% versions of the key, and `Top' is the greatest counter of its life that it ever accepted for the key, read after the
%% row.
%%
%% `forgotten': the row has a counter of the life that the coordinator doesn't know, or another value under the clock of
%% the put. The life had used this counter before, so the disk has lost something.
%%
%% `unseen' isn't damage: another client may have read the version at a holder that got its copy sooner, and put over it
%% at another coordinator. Such a version has no greater counter of the life than the put. The holder has the put in a
%% form that the coordinator can't check, so it doesn't count.
-spec judge(Put, Row :: [antientropy:version()], Own :: [antientropy:version()], cluster_lives:life(), Top) ->
    counts | unseen | forgotten when
    Put :: antientropy:version(), Top :: non_neg_integer().
judge(#{clock := Clock, value := Value}, Row, Own, Life, Top) ->
    Clocks = clocks(Row),
    IsLater = lists:any(fun(Other) -> maps:get(Life, Other, 0) > Top end, Clocks),
    Same = [Held || #{clock := Other, value := Held} <- Row, Other =:= Clock],
    Covers = [Other || Other <- Clocks, is_covered(Clock, Other)],
    IsAccepted = fun(Cover) -> lists:any(fun(Has) -> is_covered(Cover, Has) end, clocks(Own)) end,
    case {IsLater, Same} of
        {true, _} -> forgotten;
        {false, [Value]} -> counts;
        {false, [_ | _]} -> forgotten;
        {false, []} -> judge_covers(Covers =/= [] andalso lists:all(IsAccepted, Covers))
    end.

judge_covers(true) -> counts;
judge_covers(false) -> unseen.

clocks(Versions) ->
    [Clock || #{clock := Clock} <- Versions].

%% Returns true if a clock is at most another one.
is_covered(Clock, Other) ->
    {ok, Order} = antientropy:compare(Clock, Other),
    Order =:= before orelse Order =:= equal.
