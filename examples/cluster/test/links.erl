%% @doc A module `cluster_link' for tests: other places are a function of the test.
-module(links).

-export([with/2]).
-export([call/5]).

-define(LINK,
    "-module(cluster_link). -export([call/5]). "
    "call(Place, Module, Function, Arguments, LimitMs) -> links:call(Place, Module, Function, Arguments, LimitMs). "
).

%% @doc Runs a test, in which calls of other places are calls of the function. It returns or raises. It gets the limit,
%% too, if it has an argument for it.
with(Call, Test) ->
    ok = persistent_term:put(?MODULE, Call),
    {ok, cluster_link, Code} = compile:forms(forms(?LINK)),
    {module, cluster_link} = code:load_binary(cluster_link, "cluster_link", Code),
    try
        Test()
    after
        _ = code:purge(cluster_link),
        {module, cluster_link} = code:load_file(cluster_link)
    end.

%% @private
call(Place, Module, Function, Arguments, LimitMs) ->
    case persistent_term:get(?MODULE) of
        Call when is_function(Call, 4) -> Call(Place, Module, Function, Arguments);
        Call -> Call(Place, Module, Function, Arguments, LimitMs)
    end.

forms(Text) ->
    {ok, Tokens, _} = erl_scan:string(Text),
    {Forms, []} = lists:foldl(fun add_token/2, {[], []}, Tokens),
    lists:reverse(Forms).

add_token({dot, _} = Dot, {Forms, Tokens}) ->
    {ok, Form} = erl_parse:parse_form(lists:reverse([Dot | Tokens])),
    {[Form | Forms], []};
add_token(Token, {Forms, Tokens}) ->
    {Forms, [Token | Tokens]}.
