%% @doc Reports of OTP's logger in one line each, without the bytes of any key or value.
-module(cluster_report).

-export([install/0, format/2, text/1]).

%% Maximum length of a report in characters: the report of a crash can have a state and a stack.
-define(MOST_CHARS, 4000).

%% @doc Makes the logger's default handler write reports in this form.
-spec install() -> ok.
install() ->
    case logger:set_handler_config(default, formatter, {?MODULE, #{}}) of
        ok -> ok;
        {error, {not_found, default}} -> ok
    end.

%% @private
%% @doc Formats a report: a call of the logger.
-spec format(logger:log_event(), logger:formatter_config()) -> unicode:chardata().
format(#{level := Level, msg := Message, meta := Meta}, _) ->
    Line = unicode:characters_to_list([atom_to_list(Level), ": ", message_or_none(Message, Meta)]),
    [lists:sublist([char(Char) || Char <- Line], ?MOST_CHARS), $\n].

%% (A formatter that crashes is removed: nothing would be logged any more.)
message_or_none(Message, Meta) ->
    try
        [_ | _] = unicode:characters_to_list(message(Message, Meta))
    catch
        _:Reason -> ["a report that can't be written: ", text(Reason)]
    end.

message({report, #{event := Name, fields := Fields}}, _) ->
    cluster_event:line(Name, Fields);
message({report, #{alert := _, role := _} = Report}, #{report_cb := Text}) when is_function(Text, 1) ->
    %% (A report of TLS has no data that was sent.)
    {Format, Arguments} = Text(Report),
    io_lib:format(Format, Arguments);
message({string, _}, _) ->
    "a text";
message({report, Report}, _) ->
    text(Report);
message({Format, Arguments}, _) ->
    [head(Format), " ", text(Arguments)].

%% A format has no bytes of a client, but its arguments may.
head(Format) when is_atom(Format) -> atom_to_list(Format);
head(Format) -> io_lib:format("~0tp", [unicode:characters_to_list(Format)]).

char(Char) when Char < 32 -> $\s;
char(Char) -> Char.

%% @doc Returns a term as text, with the sizes of binaries and of lists of bytes in place of their bytes.
-spec text(term()) -> unicode:chardata().
text(Bytes) when is_binary(Bytes) -> size_of(byte_size(Bytes));
text(Bits) when is_bitstring(Bits) -> size_of(byte_size(Bits));
text([]) -> "[]";
text(List) when is_list(List) -> list(List);
text(Tuple) when is_tuple(Tuple) -> [${, joined(tuple_to_list(Tuple)), $}];
text(Map) when is_map(Map) -> ["#{", lists:join($,, lists:map(fun member/1, lists:sort(maps:to_list(Map)))), $}];
text(Other) -> io_lib:format("~0tp", [Other]).

list(List) ->
    case {is_proper(List), lists:all(fun is_byte/1, first_items(List))} of
        {true, true} -> size_of(length(List));
        {true, false} -> [$[, joined(List), $]];
        {false, _} -> [$[, joined(first_items(List)), $|, text(last_tail(List)), $]]
    end.

joined(Items) -> lists:join($,, [text(Item) || Item <- Items]).

member({Key, Value}) -> [text(Key), "=>", text(Value)].

size_of(Bytes) -> io_lib:format("<<~b bytes>>", [Bytes]).

is_byte(Item) -> is_integer(Item) andalso Item >= 0 andalso Item =< 255.

is_proper([_ | Rest]) -> is_proper(Rest);
is_proper(Rest) -> Rest =:= [].

first_items([Item | Rest]) -> [Item | first_items(Rest)];
first_items(_) -> [].

last_tail([_ | Rest]) -> last_tail(Rest);
last_tail(Rest) -> Rest.
