%% @private
%% @doc Arguments of a wrong type: which one it is of those in a `badarg' (EEP 54).
-module(antientropy_error).

-export([raise/2, format_error/2]).

%% @doc Raises `badarg' for the arguments of a function of the NIF library.
-spec raise(Name :: atom(), Arguments :: [term()]) -> no_return().
raise(Name, Arguments) ->
    {current_stacktrace, Trace} = process_info(self(), current_stacktrace),
    Callers = [Entry || {Module, _, _, _} = Entry <- Trace, Module =/= ?MODULE, Module =/= antientropy_call],
    Info = [{error_info, #{module => ?MODULE}}],
    erlang:raise(error, badarg, [{antientropy_nif, Name, Arguments, Info} | Callers]).

%% @doc Returns a sentence for each argument that has a wrong type.
-spec format_error(Reason :: term(), Stack :: [tuple()]) -> #{Place :: pos_integer() => unicode:chardata()}.
format_error(badarg, [{antientropy_nif, Name, Arguments, _} | _]) ->
    Typed = lists:zip3(lists:seq(1, length(Arguments)), Arguments, types(Name)),
    case maps:from_list([{Place, sentence(Type)} || {Place, Argument, Type} <- Typed, not is_of(Type, Argument)]) of
        Wrong when map_size(Wrong) > 0 -> Wrong;
        _ -> #{1 => <<"not a handle of the kind">>}
    end;
format_error(_, _) ->
    #{}.

%% The types of the arguments of a function of the NIF library.
types(name) -> [short];
types(place) -> [number, number, key];
types(Name) when Name =:= compare; Name =:= merge -> [clock, clock];
types(read_offer) -> [bytes];
types(new) -> [number, number, number, number];
types(new_seeded) -> [number, number, number, number, number, number];
types(Name) when Name =:= put; Name =:= put_unread -> [handle, number, key, value, clock];
types(accept) -> [handle, key, version];
types(Name) when Name =:= get; Name =:= count_versions; Name =:= row; Name =:= snapshot_row -> [handle, key];
types(Name) when Name =:= read; Name =:= value; Name =:= clock -> [handle, key, number];
types(Name) when Name =:= key_after; Name =:= snapshot_key_after -> [handle, number, key];
types(top_counter) -> [handle, number, key, number];
types(Name) when Name =:= load_rows; Name =:= exchange_take; Name =:= exchange_lose -> [handle, bytes];
types(load_format) -> [handle, number, bytes];
types(exchange_of_moment) -> [handle, number, bytes, bounds, any, number];
types(renewal_of_moment) -> [handle, number, any, number];
types(snapshot_of_moment) -> [handle, any, number];
types(digest) -> [handle, number, number];
types(offer) -> [handle, short];
types(serve) -> [handle, short, bytes];
types(hints_restore) -> [number];
types(hint_keep) -> [handle, number, key, version];
types(hint_next) -> [handle, number, number];
types(hint_confirm) -> [handle, number, outcome];
types(slots_new) -> [short, short, short];
types(slots_sample) -> [handle, number, short];
types(slots_set_target) -> [handle, short];
types(Name) -> [handle | numbers(Name)].

%% The other functions have a handle, and maybe a number.
numbers(Name) ->
    [number || lists:member({Name, 2}, antientropy_nif:module_info(exports))].

is_of(number, Term) -> is_integer(Term) andalso Term >= 0 andalso Term < 1 bsl 64;
is_of(short, Term) -> is_integer(Term) andalso Term >= 0 andalso Term < 1 bsl 32;
is_of(key, Term) -> is_binary(Term);
is_of(bytes, Term) -> is_iodata(Term);
is_of(value, Term) -> Term =:= tombstone orelse is_iodata(Term);
is_of(clock, Term) when is_map(Term) -> is_of(clock, maps:to_list(Term));
is_of(clock, Term) when is_list(Term) -> length_or_none(Term) =/= none andalso lists:all(fun is_pair/1, Term);
is_of(clock, _) -> false;
is_of(version, #{clock := Clock, value := Value}) -> is_of(clock, Clock) andalso is_of(value, Value);
is_of(version, _) -> false;
is_of(bounds, #{asks := A, bytes := B, bad := C, lost := D, plain := Plain}) ->
    is_boolean(Plain) andalso lists:all(fun(Each) -> is_of(number, Each) end, [A, B, C, D]);
is_of(bounds, _) -> false;
is_of(outcome, Term) -> Term =:= new orelse Term =:= known;
is_of(handle, Term) -> is_reference(Term);
is_of(any, _) -> true.

is_pair({Node, Counter}) -> is_of(number, Node) andalso is_of(number, Counter);
is_pair(_) -> false.

is_iodata(Term) ->
    try iolist_size(Term) of
        _ -> true
    catch
        error:badarg -> false
    end.

%% The length of a proper list.
length_or_none(Term) ->
    try length(Term)
    catch
        error:badarg -> none
    end.

sentence(number) -> <<"not an integer from 0 to 2^64 - 1">>;
sentence(short) -> <<"not an integer from 0 to 2^32 - 1">>;
sentence(key) -> <<"not a binary">>;
sentence(bytes) -> <<"not iodata">>;
sentence(value) -> <<"neither iodata nor the atom tombstone">>;
sentence(clock) -> <<"not a clock: a map of nodes to counters, or a list of such pairs">>;
sentence(version) -> <<"not a map with a clock and a value">>;
sentence(bounds) -> <<"not a map with integers, and a boolean for plain">>;
sentence(outcome) -> <<"neither new nor known">>;
sentence(handle) -> <<"not a handle">>.
