%% @doc The HTTP front for an administrator, and for tests: counts and dumps of nodes, and a round of repair now.
-module(cluster_admin_front).

-export([do/1]).

-include_lib("inets/include/httpd.hrl").

-define(METRICS, "text/plain; version=0.0.4; charset=utf-8").

%% @private
%% @doc Answers a request: a call of `inets'.
-spec do(#mod{}) -> {proceed, list()}.
do(Mod) ->
    cluster_http:do(admin, Mod, fun respond/1).

-spec respond(cluster_http:request()) -> cluster_http:response().
respond(#{path := Path, method := Method}) ->
    case {page(Path), Method} of
        {none, _} -> cluster_http:refusal({refused, no_such_path});
        {{get, Page}, "GET"} -> Page();
        {{get, Page}, "HEAD"} -> Page();
        {{put, Deed}, "PUT"} -> Deed();
        {{get, _}, _} -> bad_method("GET, HEAD");
        {{put, _}, _} -> bad_method("PUT")
    end.

page("/health") -> {get, fun cluster_http:health/0};
page("/status") -> {get, fun() -> cluster_http:json(200, cluster:status()) end};
page("/table") -> {get, fun() -> {200, [{content_type, "text/plain"}], cluster:table()} end};
page("/metrics") -> {get, fun() -> {200, [{content_type, ?METRICS}], cluster_prometheus:text()} end};
page("/dump") -> {get, fun() -> unless_starting(fun cluster:dump/0, fun(Dump) -> Dump end) end};
page("/repair") -> {put, fun() -> unless_starting(fun cluster_repair:round/0, fun(_) -> #{} end) end};
page(_) -> none.

%% Refuses a request if the node has no life, and so no store.
unless_starting(Call, Members) ->
    try
        cluster_http:json(200, Members(Call()))
    catch
        exit:_ -> cluster_http:refusal({refused, starting})
    end.

bad_method(Allowed) ->
    cluster_http:add_headers([{"allow", Allowed}], cluster_http:refusal({refused, bad_method})).
