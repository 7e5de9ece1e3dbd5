%% @doc The HTTP front for clients. Values are bodies, contexts are a header, all other bodies are JSON.
-module(cluster_client_front).

-export([do/1]).

-include_lib("inets/include/httpd.hrl").

%% @private
%% @doc Answers a request: a call of `inets'.
-spec do(#mod{}) -> {proceed, list()}.
do(Mod) ->
    cluster_http:do(clients, Mod, fun respond/1).

-spec respond(cluster_http:request()) -> cluster_http:response().
respond(#{path := "/keys/" ++ Encoded} = Request) ->
    %% (A slash ends a segment: it isn't part of a key.)
    case lists:member($/, Encoded) of
        true ->
            refusal(no_such_path);
        false ->
            case key(Encoded) of
                {ok, Key} -> respond_to_key(Request, Key);
                {error, Name} -> refusal(Name)
            end
    end;
respond(#{path := "/health", method := Method}) when Method =:= "GET"; Method =:= "HEAD" ->
    cluster_http:health();
respond(#{path := "/health"}) ->
    bad_method("GET, HEAD");
respond(_) ->
    refusal(no_such_path).

respond_to_key(#{method := Method} = Request, Key) when Method =:= "GET"; Method =:= "HEAD" ->
    get_key(Key, Request);
respond_to_key(#{method := "PUT", body := Value} = Request, Key) ->
    put_key(Key, Value, Request);
respond_to_key(#{method := "DELETE", body := <<>>} = Request, Key) ->
    put_key(Key, tombstone, Request);
respond_to_key(#{method := "DELETE"}, _) ->
    refused(cluster_requests:refuse(put, bad_body));
respond_to_key(_, _) ->
    bad_method("GET, HEAD, PUT, DELETE").

%% Returns the bytes of a key in a path. `inets' has removed the segments `.' and `..', which mean the same in a path if
%% they are escaped. Refused: `bad_key' (an invalid escape).
key(Encoded) ->
    try
        {ok, list_to_binary(unescaped(Encoded))}
    catch
        error:_ -> {error, bad_key}
    end.

unescaped([$%, High, Low | Rest]) -> [list_to_integer([High, Low], 16) | unescaped(Rest)];
unescaped([Char | Rest]) when Char =/= $% -> [Char | unescaped(Rest)];
unescaped([]) -> [].

%% ---- keys

get_key(Key, Request) ->
    {_, R, _} = cluster_settings:quorums(),
    case quorum("x-r", R, Request) of
        {ok, Replicas} -> found(Key, cluster_requests:get(Key, Replicas));
        {error, Name} -> refused(cluster_requests:refuse(get, Name))
    end.

put_key(Key, Value, Request) ->
    {_, _, W} = cluster_settings:quorums(),
    case {context(Key, Request), quorum("x-w", W, Request)} of
        {{ok, Context}, {ok, Disks}} -> stored(Key, cluster_requests:put(Key, Value, Context, Disks));
        {{error, Name}, _} -> refused(cluster_requests:refuse(put, Name));
        {_, {error, Name}} -> refused(cluster_requests:refuse(put, Name))
    end.

context(Key, Request) ->
    case values("x-context", Request) of
        [] -> {ok, []};
        [Text] -> cluster_clock:read_context(Key, Text);
        _ -> {error, two_contexts}
    end.

%% Returns the number R or W of a request, by default from the settings.
quorum(Header, Default, Request) ->
    {N, _, _} = cluster_settings:quorums(),
    case [string:to_integer(Text) || Text <- values(Header, Request)] of
        [] -> {ok, Default};
        [{Number, ""}] when is_integer(Number), Number >= 1, Number =< N -> {ok, Number};
        _ -> {error, bad_quorum}
    end.

values(Header, #{headers := Headers}) ->
    [Value || {Name, Value} <- Headers, Name =:= Header].

stored(Key, {ok, #{coordinator := Place, clock := Clock, on := On}}) ->
    Text = iolist_to_binary(cluster_clock:text(Clock)),
    from(Place, cluster_http:json(200, #{clock => Text, context => cluster_clock:context(Key, Clock), on => On}));
stored(_, Refused) ->
    refused(Refused).

found(Key, {ok, #{coordinator := Place, versions := Versions}}) -> from(Place, versions(Key, Versions));
found(_, Refused) -> refused(Refused).

%% Returns the response with the versions of a key.
versions(_, []) ->
    cluster_http:json(404, #{});
versions(Key, Versions) ->
    Clocks = [Clock || #{clock := Clock} <- Versions],
    case antientropy:merge(Clocks) of
        {ok, Merged} ->
            Context = {"x-context", binary_to_list(cluster_clock:context(Key, Merged))},
            Clock = {"x-clock", lists:flatten(lists:join($;, [cluster_clock:text(Clock) || Clock <- Clocks]))},
            with_context(Versions, Context, Clock);
        {error, Name} ->
            refusal(Name)
    end.

with_context([#{value := Value}], Context, Clock) when is_binary(Value) ->
    {200, [{content_type, "application/octet-stream"}, Context, Clock], Value};
with_context(Versions, Context, Clock) ->
    case [Value || #{value := Value} <- Versions, Value =/= tombstone] of
        [] -> cluster_http:add_headers([Context, Clock], cluster_http:json(404, #{}));
        _ -> cluster_http:add_headers([Context], cluster_http:json(300, #{siblings => cluster:versions(Versions)}))
    end.

%% ---- responses

refused(Refused) ->
    from(cluster_ring:here(), cluster_http:refusal(Refused)).

refusal(Name) ->
    cluster_http:refusal({refused, Name}).

bad_method(Allowed) ->
    cluster_http:add_headers([{"allow", Allowed}], refusal(bad_method)).

%% Adds the place that coordinated.
from(Place, Response) ->
    cluster_http:add_headers([{"x-place", integer_to_list(Place)}], Response).
