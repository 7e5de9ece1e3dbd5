%% @doc Refusals of requests.
%%
%% A refusal is definite: the request wasn't done, and won't be. A put that is refused with `perhaps' may have happened,
%% or may happen later.
-module(cluster_refusal).

-export([is_final/1, first/2, text/1]).

-export_type([refused/0]).

-type refused() ::
    {refused, Name :: atom()} | {perhaps, Name :: atom()} | {perhaps, hints_full, Owners :: [cluster_ring:place()]}.
%% `hints_full': no carrier has space for hints for these owners.

%% Refusals that a client can act on precede those that end by themselves.
-define(ORDER, [stale_context, clock_full, counter_full, crowded, journal_full, disk_full, starting]).

%% @doc Returns true if all holders would refuse the request, since its input is bad.
-spec is_final(Name :: atom()) -> boolean().
is_final(Name) ->
    lists:member(Name, [bad_key, bad_value, bad_clock, bad_context, other_range]).

%% @doc Returns the one of two holders' refusals that the client gets.
-spec first(Name :: atom(), Name :: atom()) -> Name :: atom().
first(Name, Other) ->
    case rank(Other) < rank(Name) of
        true -> Other;
        false -> Name
    end.

rank(down) ->
    length(?ORDER) + 1;
rank(Name) ->
    length(lists:takewhile(fun(Before) -> Before =/= Name end, ?ORDER)).

%% @doc Returns the name of a refusal as docs/FORMATS.md writes it: `StaleContext'.
-spec text(Name :: atom()) -> binary().
text(Name) ->
    << <<(string:titlecase(Word))/binary>> || Word <- string:lexemes(atom_to_binary(Name), "_") >>.
