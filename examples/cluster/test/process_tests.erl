%% @doc Processes: slots and processes that wait for them, unknown messages, tasks that crash, supervision.
-module(process_tests).

-include_lib("eunit/include/eunit.hrl").

-define(SERVERS, [cluster_space, cluster_lives, cluster_claims, cluster_wire]).

%% ---- slots

%% Waiting processes get slots in order, as soon as one is free, also when its process ends.
slots_test_() ->
    with_slots({1, 1, 20000}, fun() ->
        [First, Second, Third] = [borrower(Name) || Name <- [first, second, third]],
        ?assertEqual(first, next()),
        ?assertMatch(#{lent := 1, waiting := 2}, cluster_slots:count()),
        ?assertEqual([First], cluster_slots:holders()),
        First ! give_back,
        ?assertEqual(second, next()),
        true = exit(Second, kill),
        ?assertEqual(third, next()),
        Third ! give_back,
        room:until(fun() -> maps:with([lent, waiting], cluster_slots:count()) =:= #{lent => 0, waiting => 0} end)
    end).

%% A process that ends while it waits is forgotten.
waiting_end_test_() ->
    with_slots({1, 1, 20000}, fun() ->
        [First, Second, _] = [borrower(Name) || Name <- [first, second, third]],
        ?assertEqual(first, next()),
        true = exit(Second, kill),
        room:until(fun() -> maps:get(waiting, cluster_slots:count()) =:= 1 end),
        First ! give_back,
        ?assertEqual(third, next())
    end).

%% A process may have two slots. A slot that nobody borrowed here is given back without harm.
twice_test_() ->
    with_slots({2, 2, 20000}, fun() ->
        Slots = whereis(cluster_slots),
        ok = cluster_slots:give_back(),
        [ok = cluster_slots:lend() || _ <- [1, 2]],
        ?assertMatch(#{lent := 2}, cluster_slots:count()),
        [ok = cluster_slots:give_back() || _ <- [1, 2, 3]],
        ?assertMatch(#{lent := 0}, cluster_slots:count()),
        ?assertEqual(Slots, whereis(cluster_slots))
    end).

%% Five processes give back to a server that knows none of them: it continues.
restarted_test_() ->
    with_slots({5, 5, 20000}, fun() ->
        Borrowers = [borrower(Number) || Number <- lists:seq(1, 5)],
        [_ = next() || _ <- Borrowers],
        ok = room:kill(cluster_slots),
        {ok, Slots} = cluster_slots:start_link(),
        [Borrower ! give_back || Borrower <- Borrowers],
        [ok = gave_back() || _ <- Borrowers],
        ?assertEqual(Slots, whereis(cluster_slots))
    end).

with_slots(Slots, Test) ->
    room:test([{slots, Slots}], fun(_) ->
        {ok, _} = cluster_slots:start_link(),
        Test(),
        ok = room:kill(cluster_slots),
        ok = application:set_env(cluster, slots, {1, 4, 20000})
    end).

%% A process that borrows a slot, and gives it back on a message. (The calls are in this order.)
borrower(Name) ->
    Test = self(),
    Before = calls(),
    Borrower = spawn(fun() ->
        ok = cluster_slots:lend(),
        Test ! {lent, Name},
        receive
            give_back -> ok
        end,
        ok = cluster_slots:give_back(),
        Test ! gave_back,
        timer:sleep(infinity)
    end),
    ok = room:until(fun() -> calls() > Before end),
    Borrower.

%% Returns the number of slots that processes have or wait for.
calls() ->
    #{lent := Lent, waiting := Waiting} = cluster_slots:count(),
    Lent + Waiting.

%% Waits for the next process that gets a slot.
next() ->
    receive
        {lent, Name} -> Name
    end.

%% Waits for a process that gave one back.
gave_back() ->
    receive
        gave_back -> ok
    end.

%% ---- unknown messages

%% No process ends by them: an unknown call is refused, and any other message is ignored.
stray_test_() ->
    room:test([], fun(_) ->
        Started = [
            begin
                {ok, _} = Module:start_link(),
                Module
            end
         || Module <- [cluster_slots, cluster_hints, cluster_handoff, cluster_repair]
        ],
        {ok, _} = cluster_range:start_link(0),
        Names = ?SERVERS ++ [cluster_range_0 | Started],
        Processes = lists:map(fun whereis/1, Names),
        [
            begin
                ?assertEqual({Name, {error, unknown_call}}, {Name, gen_server:call(Name, misspelt)}),
                ok = gen_server:cast(Name, misspelt),
                [Name ! Message || Message <- [stray, {make_ref(), late}, {'DOWN', make_ref(), process, self(), gone}]],
                _ = sys:get_status(Name)
            end
         || Name <- Names
        ],
        ?assertEqual(Processes, lists:map(fun whereis/1, Names)),
        [ok = room:kill(Name) || Name <- Started]
    end).

%% ---- tasks

%% A task has a result, or it crashed. A waiting process sees its end in the same way.
task_test_() -> room:plain(fun tasks/0).

tasks() ->
    Result = fun({_, Monitor}) ->
        receive
            {'DOWN', Monitor, process, _, Reason} -> cluster_task:result(test, Reason)
        end
    end,
    Tasks = [fun() -> done end, fun() -> exit(gone) end, fun() -> error(wrong) end, fun() -> exit(normal) end],
    ?assertEqual([{ok, done}, crashed, crashed, crashed], [Result(cluster_task:start(Task)) || Task <- Tasks]),
    ?assertEqual([{ok, done}, crashed, crashed, crashed], [Result(cluster_task:start_link(Task)) || Task <- Tasks]).

%% A linked task ends with its process.
linked_test_() -> room:plain(fun linked/0).

linked() ->
    Test = self(),
    Owner = spawn(fun() ->
        {Task, _} = cluster_task:start_link(fun() -> timer:sleep(infinity) end),
        Test ! {task, Task},
        timer:sleep(infinity)
    end),
    Task =
        receive
            {task, Started} -> Started
        end,
    Monitor = monitor(process, Task),
    true = exit(Owner, kill),
    receive
        {'DOWN', Monitor, process, _, killed} -> ok
    end.

%% A start that fails is an error, and doesn't end its caller.
start_error_test_() ->
    room:test([], fun(_) ->
        Same = [{Module, Module:start_link()} || Module <- ?SERVERS],
        [?assertMatch({_, {error, {already_started, _}}}, Started) || Started <- Same]
    end).

%% ---- supervision

%% A crash of the hints or of the slots ends what depends on them, and neither ranges nor the store. Five ranges that
%% crash in a row don't count with the others.
store_test_() ->
    room:test([], fun(_) ->
        {ok, Store} = cluster_store:start_link(),
        Ranges = processes([cluster_range_0, cluster_range_3]),
        Background = [cluster_slots, cluster_handoff, cluster_repair],
        crash(cluster_hints, Background),
        crash(cluster_slots, [cluster_handoff, cluster_repair]),
        [crash(cluster_repair, []) || _ <- [1, 2]],
        ?assertEqual(Ranges, processes([cluster_range_0, cluster_range_3])),
        [crash(cluster_range_0, []) || _ <- [1, 2, 3, 4]],
        ?assert(is_process_alive(Store)),
        true = unlink(Store),
        true = exit(Store, shutdown),
        room:until(fun() -> not is_process_alive(Store) end)
    end).

%% Kills a process, and waits until it and these others have started again.
crash(Name, Others) ->
    Before = processes([Name | Others]),
    true = exit(whereis(Name), kill),
    room:until(fun() ->
        After = processes([Name | Others]),
        lists:all(fun is_pid/1, After) andalso After -- Before =:= After
    end).

processes(Names) ->
    lists:map(fun whereis/1, Names).
