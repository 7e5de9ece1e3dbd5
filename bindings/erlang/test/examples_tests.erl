%% The examples, and the code of the page. ANTIENTROPY_ROOM is a folder that has the application, which ERL_LIBS names.
-module(examples_tests).

-include_lib("eunit/include/eunit.hrl").

outage_test_() ->
    {timeout, 60, fun() ->
        {ok, Expected} = file:read_file("../python/examples/outage.out"),
        ?assertEqual({0, Expected}, run("escript", ["examples/outage.escript"], []))
    end}.

%% The blocks of Erlang in the page, in turn, with the variables of those before.
readme_test() ->
    {ok, Page} = file:read_file("README.md"),
    ?assertEqual([<<"erlang">>, <<"sh">>], lists:usort(captured(Page, "(?m)^```(\\w+)$"))),
    Blocks = captured(Page, "(?s)```erlang\n(.*?)```"),
    ?assert(length(Blocks) > 0),
    lists:foldl(fun evaluate/2, erl_eval:new_bindings(), Blocks).

evaluate(Block, Bindings) ->
    {ok, Tokens, _} = erl_scan:string(binary_to_list(Block)),
    {ok, Expressions} = erl_parse:parse_exprs(Tokens),
    {value, _, After} = erl_eval:exprs(Expressions, Bindings),
    After.

captured(Text, Pattern) ->
    {match, Found} = re:run(Text, Pattern, [global, {capture, [1], binary}]),
    lists:append(Found).

%% The two nodes use a new port mapper, which listens only on the loopback interface.
two_nodes_test_() ->
    {timeout, 120, {setup, fun start_epmd/0, fun stop_epmd/1, fun(Started) ->
        {timeout, 100, fun() -> two_nodes(Started) end}
    end}}.

two_nodes({_, Environment}) ->
    Room = os:getenv("ANTIENTROPY_ROOM"),
    case run("erl", ["-noinput", "-name", "probe@127.0.0.1", "-eval", "halt()."], Environment) of
        {0, _} ->
            Sources = filelib:wildcard("examples/two_nodes/*.erl"),
            {0, _} = run("erlc", ["-Wall", "-Werror", "-o", Room | Sources], []),
            Flags = ["-noinput", "-pa", Room, "-name", "a@127.0.0.1", "-setcookie", "two_nodes"],
            {ok, Expected} = file:read_file("examples/two_nodes/two_nodes.out"),
            ?assertEqual({0, Expected}, run("erl", Flags ++ ["-s", "two_nodes", "main"], Environment));
        {_, Output} ->
            io:format(user, "skipped: two_nodes: nodes can't start here:~n~s", [Output])
    end.

start_epmd() ->
    {ok, Socket} = gen_tcp:listen(0, [{ip, {127, 0, 0, 1}}]),
    {ok, Number} = inet:port(Socket),
    ok = gen_tcp:close(Socket),
    Port = integer_to_list(Number),
    Epmd = open_port({spawn_executable, os:find_executable("epmd")}, [
        {args, ["-port", Port, "-address", "127.0.0.1"]}, stderr_to_stdout, binary
    ]),
    true = support:until(fun() -> is_open(Number) end),
    {Epmd, [{"ERL_EPMD_PORT", Port}, {"ERL_EPMD_ADDRESS", "127.0.0.1"}]}.

is_open(Number) ->
    case gen_tcp:connect({127, 0, 0, 1}, Number, []) of
        {ok, Socket} -> ok =:= gen_tcp:close(Socket);
        {error, _} -> false
    end.

stop_epmd({Epmd, _}) ->
    {os_pid, Process} = erlang:port_info(Epmd, os_pid),
    os:cmd("kill " ++ integer_to_list(Process)).

%% Runs a program, and returns its status and its output.
run(Program, Arguments, Environment) ->
    Port = open_port({spawn_executable, os:find_executable(Program)}, [
        {args, Arguments}, {env, Environment}, exit_status, stderr_to_stdout, binary
    ]),
    collect(Port, []).

collect(Port, Output) ->
    receive
        {Port, {data, More}} -> collect(Port, [Output, More]);
        {Port, {exit_status, Status}} -> {Status, iolist_to_binary(Output)}
    end.
