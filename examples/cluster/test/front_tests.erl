%% @doc The HTTP fronts: a node that has no life yet, a front that is killed, odd and malformed requests, tokens.
-module(front_tests).
-behaviour(supervisor).

-export([init/1]).

-include_lib("eunit/include/eunit.hrl").

-define(STARTING, {503, "{\"refused\":\"Starting\"}\n"}).

%% Before a life has begun, puts and gets are refused, and the status shows no life. The health doesn't wait for
%% anything.
starting_test_() ->
    test([], fun(_) ->
        ok = cluster_life:enter(none),
        ?assertEqual(?STARTING, request(get, {url("/keys/cart"), []})),
        ?assertEqual(?STARTING, request(put, {url("/keys/cart"), [], "text/plain", "milk"})),
        {200, Status} = request(get, {admin_url("/status"), []}),
        Parts = ["\"life\":null", "\"full\":false", "\"aside\":[]", "\"refused\":{\"Starting\":2}"],
        [?assertNotEqual(nomatch, string:find(Status, Part)) || Part <- Parts],
        ?assertMatch({503, "{" ++ _}, request(get, {url("/health"), []})),
        ok = cluster_life:enter({ready, 33}),
        ?assertMatch({200, "{" ++ _}, request(get, {url("/health"), []})),
        ?assertMatch({200, "# HELP" ++ _}, request(get, {admin_url("/metrics"), []}))
    end).

%% A front that is killed serves again, each time.
killed_test_() ->
    test([], fun(Supervisor) -> [?assertEqual(404, killed(Supervisor)) || _ <- [1, 2, 3]] end).

killed(Supervisor) ->
    Front = child(Supervisor),
    true = exit(Front, kill),
    ok = room:until(fun() -> is_pid(child(Supervisor)) andalso child(Supervisor) =/= Front end),
    element(1, request(get, {url("/none"), []})).

child(Supervisor) ->
    {clients, Child, _, _} = lists:keyfind(clients, 1, supervisor:which_children(Supervisor)),
    Child.

%% ---- odd and malformed requests

%% Each request has one response, and the front serves after it. (There is no life: a valid request is refused as
%% `Starting'.)
odd_test_() ->
    test([], fun(_) ->
        ok = cluster_life:enter(none),
        Begin = fun(Request) -> lists:sublist(lists:flatten(Request), 60) end,
        Ask = fun({Request, Wanted}) -> {Begin(Request), Wanted, answered(Request, length(Wanted))} end,
        Answers = room:all_at_once(Ask, odd()),
        ?assertEqual([], [Wrong || {_, Wanted, Found} = Wrong <- Answers, Wanted =/= Found]),
        ?assertEqual(?STARTING, request(get, {url("/keys/cart"), []}))
    end).

odd() ->
    Get = fun(Path) -> ["GET ", Path, " HTTP/1.1\r\nhost: a\r\n\r\n"] end,
    With = fun(Line, Headers, Body) -> [Line, " HTTP/1.1\r\nhost: a\r\n", Headers, "\r\n", Body] end,
    Put = fun(Headers, Body) -> With("PUT /keys/cart", Headers, Body) end,
    Length = fun(Number) -> ["content-length: ", integer_to_list(Number), "\r\n"] end,
    [
        %% Paths.
        {Get("/keys/cart"), [503]},
        {Get("/keys/"), [400]},
        {Get("/keys"), [404]},
        {Get("/"), [404]},
        {Get("/keys/a/b"), [404]},
        {Get("/keys/a%2Fb"), [503]},
        {Get("/keys/a/../b"), [503]},
        {Get("/keys/../status"), [404]},
        {Get("/status"), [404]},
        {Get("/dump"), [404]},
        {Get("/keys/%2e%2e"), [404]},
        {Get("/keys/%"), [400]},
        {Get("/keys/%4"), [400]},
        {Get("/keys/%zz"), [400]},
        {Get("/keys/%00"), [503]},
        {Get("/keys/cart?x=1"), [503]},
        {Get(["/keys/", lists:duplicate(255, $a)]), [503]},
        {Get(["/keys/", lists:duplicate(256, $a)]), [400]},
        {Get(["/keys/", lists:duplicate(5000, $a)]), [414]},
        {Get("keys/cart"), [404]},
        %% Methods.
        {With("HEAD /keys/cart", "", ""), [503]},
        {With("POST /keys/cart", Length(0), ""), [405]},
        {With("PATCH /keys/cart", Length(0), ""), [405]},
        {With("TRACE /keys/cart", "", ""), [405]},
        {With("BREW /keys/cart", "", ""), [501]},
        {With("PUT /health", Length(0), ""), [405]},
        {With("DELETE /keys/cart", Length(1), "x"), [400]},
        {With("DELETE /keys/cart", Length(0), ""), [503]},
        %% Bodies.
        {Put(Length(0), ""), [503]},
        {Put(Length(65536), lists:duplicate(65536, $x)), [503]},
        {Put(Length(65537), ""), [413]},
        {Put(Length(100000000), ""), [413]},
        {Put("content-length: -1\r\n", ""), [411]},
        {Put("content-length: many\r\n", ""), [411]},
        {Put("transfer-encoding: chunked\r\n", "3\r\nabc\r\n0\r\n\r\n"), [501]},
        {Put("transfer-encoding: chunked\r\n", "6400000\r\n"), [501]},
        {Put(["transfer-encoding: gzip, chunked\r\n", Length(3)], "abc"), [501]},
        {Put([Length(65536), "expect: 100-continue\r\n"], lists:duplicate(65536, $x)), [100, 503]},
        {Put([Length(65537), "expect: 100-continue\r\n"], ""), [413]},
        %% Headers.
        {Put([Length(0), "x-context: ****\r\n"], ""), [400]},
        {Put([Length(0), "x-context: AAAA\r\n"], ""), [400]},
        {Put([Length(0), "x-context: \r\nx-context: \r\n"], ""), [400]},
        {Put([Length(0), "x-w: 0\r\n"], ""), [400]},
        {Put([Length(0), "x-w: 4\r\n"], ""), [400]},
        {Put([Length(0), "x-w: two\r\n"], ""), [400]},
        {Put([Length(0), "x-w: 3\r\n"], ""), [503]},
        {Put([Length(0), "x-long: ", lists:duplicate(20000, $x), "\r\n"], ""), [413]},
        {["GET /keys/cart HTTP/1.1\r\n\r\n"], [400]},
        {["GET /keys/cart HTTP/3.0\r\n\r\n"], [400]},
        {["GET /keys/cart\r\n\r\n"], [505]},
        {[lists:duplicate(100, $x), " / HTTP/1.1\r\n\r\n"], [413]},
        {["GET /keys/cart HTTP/1.0\r\n\r\n"], [503]},
        %% Two requests at once.
        {[Get("/keys/cart"), Get("/none")], [503, 404]}
    ].

%% Sends bytes, and returns the statuses of the responses.
answered(Request, Count) ->
    Socket = connected(),
    ok = gen_tcp:send(Socket, Request),
    Received = received(Socket, Count, <<>>),
    ok = gen_tcp:close(Socket),
    statuses(Received).

connected() ->
    {ok, Port} = application:get_env(cluster, http_port),
    {ok, Socket} = gen_tcp:connect({127, 0, 0, 1}, Port, [binary, {active, false}]),
    Socket.

statuses(Received) ->
    case re:run(Received, "HTTP/1.[01] ([0-9]{3}) ", [global, {capture, [1], list}]) of
        {match, Statuses} -> [list_to_integer(Status) || [Status] <- Statuses];
        nomatch -> []
    end.

%% Waits for some responses, and half a second for more. (A connection that is kept open sends nothing more.)
received(Socket, Count, Before) ->
    LimitMs =
        case length(statuses(Before)) < Count of
            true -> infinity;
            false -> 500
        end,
    case gen_tcp:recv(Socket, 0, LimitMs) of
        {ok, Bytes} -> received(Socket, Count, <<Before/binary, Bytes/binary>>);
        {error, _} -> Before
    end.

%% HEAD has the headers of GET, and no body. A method that a path doesn't have is refused with those that it has.
head_test_() ->
    test([], fun(_) ->
        ok = cluster_life:enter(none),
        {ok, {{_, 503, _}, Headers, []}} = httpc:request(head, {url("/keys/cart"), []}, [], []),
        {ok, {{_, 503, _}, Same, Body}} = httpc:request(get, {url("/keys/cart"), []}, [], []),
        Value = fun(Name, In) -> proplists:get_value(Name, In) end,
        [?assertEqual(Value(Name, Same), Value(Name, Headers)) || Name <- ["content-length", "content-type"]],
        ?assertEqual(integer_to_list(length(Body)), Value("content-length", Headers)),
        {ok, {{_, 405, _}, Refused, _}} = httpc:request(post, {url("/keys/cart"), [], "text/plain", ""}, [], []),
        ?assertEqual("GET, HEAD, PUT, DELETE", proplists:get_value("allow", Refused))
    end).

%% Bodies of 100 MB aren't taken into memory, by their length or in chunks.
large_test_() ->
    test([], fun(_) ->
        Before = erlang:memory(total),
        Statuses = room:all_at_once(fun put_large/1, ["content-length: 100000000", "transfer-encoding: chunked"]),
        ?assertEqual([[413], [501]], lists:sort(Statuses)),
        ?assert(erlang:memory(total) - Before < 20000000)
    end).

%% Puts until the front closes the connection.
put_large(Length) ->
    Socket = connected(),
    ok = gen_tcp:send(Socket, ["PUT /keys/a HTTP/1.1\r\nhost: a\r\n", Length, "\r\n\r\n"]),
    Statuses = statuses(received(Socket, 1, <<>>)),
    Chunk = ["186a0\r\n", binary:copy(<<"x">>, 100000), "\r\n"],
    Sent = lists:takewhile(fun(_) -> gen_tcp:send(Socket, Chunk) =:= ok end, lists:seq(1, 1000)),
    ?assert(length(Sent) < 1000),
    Statuses.

%% ---- tokens

%% With a token, only the health is public.
token_test_() ->
    File = room:folder("token"),
    ok = file:write_file(File, "a secret\n"),
    test([{http_token, File}], fun(_) ->
        ok = cluster_life:enter(none),
        Get = fun(Path, Headers) -> element(1, request(get, {url(Path), Headers})) end,
        ?assertEqual(503, Get("/keys/cart", [{"authorization", "Bearer a secret"}])),
        ?assertEqual(401, Get("/keys/cart", [])),
        ?assertEqual(401, Get("/keys/cart", [{"authorization", "Bearer a secre"}])),
        ?assertEqual(401, Get("/keys/cart", [{"authorization", "Basic a secret"}])),
        ?assertEqual(503, Get("/health", [])),
        ?assertEqual(404, element(1, request(get, {admin_url("/none"), []})))
    end).

%% ---- the fronts of a test

test(Settings, Test) ->
    Ports = [{http_port, room:free_port()}, {admin_port, room:free_port()}],
    room:test([{life, none}] ++ Ports ++ Settings, fun(_) ->
        {ok, _} = application:ensure_all_started(inets),
        {ok, Supervisor} = supervisor:start_link(?MODULE, []),
        Test(Supervisor),
        true = unlink(Supervisor),
        Monitor = monitor(process, Supervisor),
        true = exit(Supervisor, shutdown),
        receive
            {'DOWN', Monitor, process, _, _} -> ok
        end
    end).

%% @private
init([]) ->
    Fronts = [#{id => Front, start => {cluster_http, start_link, [Front]}} || Front <- [clients, admin]],
    {ok, {#{strategy => one_for_one, intensity => 5, period => 10}, Fronts}}.

request(Method, Request) ->
    {ok, {{_, Status, _}, _, Body}} = httpc:request(Method, Request, [], []),
    {Status, Body}.

url(Path) -> url(http_port, Path).

admin_url(Path) -> url(admin_port, Path).

url(Name, Path) ->
    {ok, Port} = application:get_env(cluster, Name),
    "http://127.0.0.1:" ++ integer_to_list(Port) ++ Path.
