%% @doc Runs all tests in the folder of this module, and prints a line for each that failed. The last line is
%% 'N passed, M failed'. Each test may take twenty minutes, since EUnit's five seconds are few on a busy machine.
-module(report).
-behaviour(eunit_listener).

-export([main/0, main/1]).
-export([start/0, start/1, init/1, handle_begin/3, handle_end/3, handle_cancel/3, terminate/2]).

-define(SECONDS, 1200).

%% @doc Runs all tests, and ends the node.
main() ->
    Folder = filename:dirname(code:which(?MODULE)),
    Files = lists:sort(filelib:wildcard("*_tests.beam", Folder)),
    main([list_to_atom(filename:basename(File, ".beam")) || File <- Files]).

%% @doc Runs the tests of modules, and ends the node. Its status is 0 if none failed.
main(Modules) ->
    {Passed, Failed} = run(Modules, {0, 0}),
    io:format("~b passed, ~b failed~n", [Passed, Failed]),
    halt(min(Failed, 1)).

%% Runs the tests of modules in turn, and adds up their counts.
run([], Counts) ->
    Counts;
run([Module | Modules], {Passed, Failed}) ->
    eunit:test(tests(Module), [no_tty, {report, {?MODULE, [{main, self()}]}}]),
    receive
        {counts, 0, 0} -> run(Modules, {Passed, Failed + 1});
        {counts, MorePassed, MoreFailed} -> run(Modules, {Passed + MorePassed, Failed + MoreFailed})
    end.

%% Returns the tests of a module.
tests(Module) ->
    [
        {generator, fun() -> patient(made(Module, Name)) end}
     || {Name, 0} <- Module:module_info(exports), lists:suffix("_test", string:trim(atom_to_list(Name), trailing, "_"))
    ].

%% Returns the test of a name, or the tests that a generator makes, whose name ends with `_'.
made(Module, Name) ->
    case lists:last(atom_to_list(Name)) of
        $_ -> Module:Name();
        _ -> fun Module:Name/0
    end.

%% Returns tests with the time that each may take.
patient(Tests) when is_list(Tests) -> [patient(Test) || Test <- Tests];
patient({timeout, _, Tests}) -> patient(Tests);
patient({inorder, Tests}) -> {inorder, patient(Tests)};
patient({setup, Setup, Tests}) -> {setup, Setup, patient(Tests)};
patient({setup, Setup, Cleanup, Tests}) -> {setup, Setup, Cleanup, patient(Tests)};
patient({foreach, Setup, Tests}) -> {foreach, Setup, patient(Tests)};
patient({foreach, Setup, Cleanup, Tests}) -> {foreach, Setup, Cleanup, patient(Tests)};
patient({with, Tests}) -> fun(Made) -> [patient(fun() -> Test(Made) end) || Test <- Tests] end;
patient({Title, Tests}) -> {Title, patient(Tests)};
patient(Tests) when is_function(Tests, 1) -> fun(Made) -> patient(Tests(Made)) end;
patient(Test) when is_function(Test, 0) -> {timeout, ?SECONDS, Test}.

start() ->
    start([]).

start(Options) ->
    eunit_listener:start(?MODULE, Options).

init(Options) ->
    proplists:get_value(main, Options).

handle_begin(_, _, Main) ->
    Main.

handle_end(test, Test, Main) ->
    case proplists:get_value(status, Test) of
        {error, Why} -> failed(Test, Why);
        _ -> ok
    end,
    Main;
handle_end(group, _, Main) ->
    Main.

handle_cancel(_, Item, Main) ->
    failed(Item, proplists:get_value(reason, Item)),
    Main.

%% A test that was cancelled, or a group that wasn't set up, counts as one that failed.
terminate({ok, Counts}, Main) ->
    Main ! {counts, proplists:get_value(pass, Counts), failures(Counts)};
terminate({error, Why}, Main) ->
    io:format("FAILED: ~p~n", [Why]),
    Main ! {counts, 0, 1}.

failures(Counts) ->
    lists:sum([proplists:get_value(Count, Counts) || Count <- [fail, skip, cancel]]).

failed(Item, Why) ->
    Source = proplists:get_value(source, Item, proplists:get_value(desc, Item)),
    io:format("FAILED: ~p, line ~p~n~p~n", [Source, proplists:get_value(line, Item, 0), Why]).
