%% The binding has each call, refusal and number of the header.
-module(header_tests).

-include_lib("eunit/include/eunit.hrl").

-define(HEADER, "../../include/antientropy.h").

%% C's own loop of a sync, which has no functions here: an exchange is that loop.
-define(LOOP, ["open", "open_at_moment", "outstanding", "ask", "ask_at", "outline_at", "take", "session",
               "cancel"]).

%% The function for each call of the header.
-define(FUNCTIONS, #{
    "version" => {antientropy, version, 0},
    "name" => {antientropy, name, 1},
    "place" => {antientropy, place, 3},
    "new" => {antientropy, new, 1},
    "new_seeded" => {antientropy, new_seeded, 3},
    "free" => {antientropy, close, 1},
    "renew" => {antientropy, renew, 2},
    "renewal_begin" => {antientropy, renewal, 2},
    "renewal_build" => {antientropy, renewal, 2},
    "renewal_catch_up" => {antientropy, renewal, 2},
    "renewal_finish" => {antientropy_renewal, finish, 1},
    "renewal_free" => {antientropy_renewal, close, 1},
    "migrate" => {antientropy, migrate, 1},
    "count" => {antientropy, count, 1},
    "bytes" => {antientropy, bytes, 1},
    "about" => {antientropy, about, 1},
    "put_read" => {antientropy, put, 5},
    "put" => {antientropy, put_unread, 5},
    "accept" => {antientropy, accept, 3},
    "get" => {antientropy, row, 2},
    "versions" => {antientropy, count_versions, 2},
    "value" => {antientropy, value, 3},
    "clock" => {antientropy, clock, 3},
    "read" => {antientropy, read, 3},
    "key_after" => {antientropy, key_after, 3},
    "compare" => {antientropy, compare, 2},
    "merge" => {antientropy, merge, 1},
    "entries" => {antientropy, packed_entries, 2},
    "entry_key" => {antientropy, entry, 2},
    "entry_value" => {antientropy, entry, 2},
    "entry_clock" => {antientropy, entry, 2},
    "entry_source" => {antientropy, entry, 2},
    "top_counter" => {antientropy, top_counter, 4},
    "rehash_some" => {antientropy, rehash_some, 2},
    "hold" => {antientropy, hold, 1},
    "drop_moment" => {antientropy, drop_moment, 1},
    "take_portion" => {antientropy, hash_moment, 2},
    "hash_portion" => {antientropy, hash_moment, 2},
    "install_portion" => {antientropy, hash_moment, 2},
    "portion_free" => {antientropy, hash_moment, 2},
    "moment" => {antientropy, moment, 1},
    "snapshot" => {antientropy, snapshot, 2},
    "snapshot_share" => {antientropy_snapshot, share, 1},
    "snapshot_free" => {antientropy_snapshot, close, 1},
    "snapshot_about" => {antientropy_snapshot, info, 1},
    "snapshot_bytes" => {antientropy_snapshot, bytes, 1},
    "snapshot_get" => {antientropy_snapshot, row, 2},
    "snapshot_key_next" => {antientropy_snapshot, key_after, 3},
    "digest" => {antientropy_snapshot, digest, 3},
    "root" => {antientropy_snapshot, root, 1},
    "offer" => {antientropy_snapshot, offer, 2},
    "read_offer" => {antientropy, read_offer, 1},
    "serve" => {antientropy_snapshot, serve, 3},
    "rows" => {antientropy_snapshot, rows, 2},
    "load" => {antientropy, load_rows, 2},
    "load_format" => {antientropy, load_format, 3},
    "exchange_open" => {antientropy, exchange, 4},
    "exchange_next" => {antientropy_exchange, asks, 1},
    "exchange_take" => {antientropy_exchange, take, 2},
    "exchange_lose" => {antientropy_exchange, lose, 2},
    "exchange_go_on" => {antientropy_exchange, go_on, 1},
    "exchange_report" => {antientropy_exchange, progress, 1},
    "exchange_left" => {antientropy_exchange, left, 1},
    "exchange_close" => {antientropy_exchange, close, 1},
    "exchange_free" => {antientropy_exchange, close, 1},
    "drop_sessions" => {antientropy, drop_sessions, 1},
    "hints_new" => {antientropy_hints, new, 0},
    "hints_restore" => {antientropy_hints, restore, 1},
    "hints_free" => {antientropy_hints, close, 1},
    "hint_keep" => {antientropy_hints, keep, 4},
    "hint_next" => {antientropy_hints, next, 3},
    "hint_owner" => {antientropy_hints, hint, 2},
    "hint_key" => {antientropy_hints, hint, 2},
    "hint_value" => {antientropy_hints, hint, 2},
    "hint_clock" => {antientropy_hints, hint, 2},
    "hint_confirm" => {antientropy_hints, confirm, 3},
    "hints_renew" => {antientropy_hints, renew, 1},
    "hints_count" => {antientropy_hints, count, 1},
    "hints_bytes" => {antientropy_hints, bytes, 1},
    "slots_new" => {antientropy_slots, new, 3},
    "slots_free" => {antientropy_slots, close, 1},
    "slot_lend" => {antientropy_slots, lend, 1},
    "slot_give_back" => {antientropy_slots, give_back, 1},
    "slots_sample" => {antientropy_slots, sample, 3},
    "slots_adjust" => {antientropy_slots, adjust, 2},
    "slots_set_target" => {antientropy_slots, set_target, 2},
    "slots_count" => {antientropy_slots, count, 1}
}).

calls_have_functions_test() ->
    ?assertEqual(declared(), lists:sort(maps:keys(?FUNCTIONS))),
    [?assert(is_exported(Function)) || Function <- maps:values(?FUNCTIONS)].

calls_are_made_test() ->
    Sources = [text(File) || File <- filelib:wildcard("c_src/*.c")],
    ?assertEqual(declared(), found(Sources, "\\bantientropy_(\\w+)\\(")).

%% The module antientropy_nif has the functions of c_src/calls.h.
functions_of_the_nif_library_test() ->
    {match, Found} = re:run(text("c_src/calls.h"), "X\\((\\w+), (\\d), \\w+\\)", [global, {capture, [1, 2], list}]),
    Calls = [{list_to_atom(Name), list_to_integer(Arity)} || [Name, Arity] <- Found],
    ?assertEqual(lists:sort(Calls), lists:sort(antientropy_nif:module_info(exports) -- module_info_functions())).

refusals_have_the_names_of_the_header_test() ->
    {match, [Causes]} = re:run(text(?HEADER), "enum \\{\\s*ANTIENTROPY_OK = 0,(.*?)\\};", [
        dotall, {capture, [1], list}
    ]),
    Numbers = numbers(Causes),
    ?assert(length(Numbers) >= 29),
    [
        ?assertEqual(list_to_atom(string:lowercase(Name)), antientropy:name(list_to_integer(Number)))
     || [Name, Number] <- Numbers
    ].

%% A checkpoint has as many leaves as the header says.
leaves_test() ->
    Text = text(?HEADER),
    [
        begin
            Macro = "#define ANTIENTROPY_LEAVES_" ++ integer_to_list(Format) ++ " (\\d+)",
            {match, [Leaves]} = re:run(Text, Macro, [{capture, [1], list}]),
            {ok, Snapshot} = antientropy:snapshot(support:replica(#{format => Format})),
            ?assertEqual({ok, <<>>}, antientropy_snapshot:rows(Snapshot, list_to_integer(Leaves) - 1)),
            ?assertEqual({error, bad_message}, antientropy_snapshot:rows(Snapshot, list_to_integer(Leaves)))
        end
     || Format <- [1, 2]
    ].

%% Each exported function has a type and a comment for its page.
pages_test() ->
    [
        ?assertEqual([], without_page(Module))
     || Module <- modules(), Module =/= antientropy_nif
    ].

without_page(Module) ->
    Text = text(filename:join("src", atom_to_list(Module) ++ ".erl")),
    Paged = found([Text], "(?m)^%% @doc (?:[^\\n]*\\n)(?:%%[^\\n]*\\n)*-spec (\\w+)\\("),
    Exported = Module:module_info(exports) -- module_info_functions(),
    lists:usort([Name || {Name, _} <- Exported]) -- [list_to_atom(Name) || Name <- Paged].

modules() ->
    {ok, _} = application:ensure_all_started(antientropy),
    {ok, Modules} = application:get_key(antientropy, modules),
    Modules.

module_info_functions() ->
    [{module_info, 0}, {module_info, 1}].

is_exported({Module, Function, Arity}) ->
    {module, Module} = code:ensure_loaded(Module),
    erlang:function_exported(Module, Function, Arity).

%% The names of the calls in the header, without those by shares, which its inline functions make, C's own loop, and
%% three others. key_next is key_after with the key's memory for the result. hash_moment is the calls of a portion in
%% one, and rehash is rehash_some with no limit: other calls would wait for both.
declared() ->
    Declared = "(?m)^(?:static inline )?(?:uint32_t|void) antientropy_(?!share_)(\\w+)\\(",
    All = found([text(?HEADER)], Declared),
    ?assertEqual([], ?LOOP -- All),
    All -- ["key_next", "hash_moment", "rehash" | ?LOOP].

%% The first group of each match, sorted.
found(Texts, Pattern) ->
    {match, Found} = re:run(Texts, Pattern, [global, {capture, [1], list}]),
    lists:usort(lists:append(Found)).

numbers(Text) ->
    {match, Numbers} = re:run(Text, "ANTIENTROPY_(\\w+) = (\\d+)", [global, {capture, [1, 2], list}]),
    Numbers.

%% The text of a file without its comments of C.
text(File) ->
    {ok, Text} = file:read_file(File),
    re:replace(Text, "/\\*.*?\\*/", "", [global, dotall, {return, list}]).
