%% @doc Events that an operator must know, one line of the log for each: `event down place=3'.
-module(cluster_event).

-export([note/2, line/2]).

-export_type([name/0, fields/0]).

-type name() ::
    down | up | new_life | ready | checkpoint | renewal | renewal_refused | hints_refused | sync_failed
    | settings_differ.
-type fields() :: [{Name :: atom(), Value :: integer() | atom() | string()}].
%% (No field has a value of a client.)

%% @doc Logs an event, and counts it.
-spec note(name(), fields()) -> ok.
note(Name, Fields) ->
    ok = cluster_metrics:count(events, [{event, Name}]),
    logger:notice(#{event => Name, fields => Fields}).

%% @doc Returns the line of an event.
-spec line(name(), fields()) -> unicode:chardata().
line(Name, Fields) ->
    ["event ", atom_to_list(Name) | [[$\s, atom_to_list(Field), $=, text(Value)] || {Field, Value} <- Fields]].

text(Number) when is_integer(Number) -> integer_to_list(Number);
text(Atom) when is_atom(Atom) -> atom_to_list(Atom);
text(Text) -> io_lib:format("~0tp", [unicode:characters_to_list(Text)]).
