%% @doc The HTTP fronts: servers of `inets', each with a module that responds to its requests. One is for clients, and
%% one for an administrator, on a separate port.
%%
%% Bodies, headers and paths that are too long are refused before they are in memory. A front has TLS if the settings
%% name a certificate, and requires a token if they name its file.
-module(cluster_http).
-behaviour(httpd_custom_api).

-export([start_link/1, do/3]).
-export([request_header/1, response_header/1, response_default_headers/0]).
-export([json/2, refusal/1, health/0, add_headers/2]).

-export_type([request/0, response/0]).

-include_lib("inets/include/httpd.hrl").

-define(TRIES, 40).
-define(AGAIN_MS, 50).
%% Maximum sizes in bytes of a value, a path (each byte of a key may be three), and all headers.
-define(MOST_BODY, 65536).
-define(LIMIT, "65537").
-define(MOST_PATH, 1024).
-define(MOST_HEADERS, 8192).

-type request() :: #{
    method := string(), path := string(), query := string(), headers := [{string(), string()}], body := binary()
}.
-type response() :: {Status :: 200..505, Headers :: [{atom() | string(), string()}], Body :: iodata()}.

%% @doc Starts a front. A front that was killed takes a moment to release its port.
-spec start_link(clients | admin) -> {ok, pid()} | {error, term()}.
start_link(Front) ->
    start_link(options(Front, cluster_settings:front(Front)), ?TRIES).

start_link(Options, Tries) ->
    case inets:start(httpd, Options, stand_alone) of
        {error, _} when Tries > 1 ->
            timer:sleep(?AGAIN_MS),
            start_link(Options, Tries - 1);
        Started ->
            Started
    end.

options(Front, #{ip := Ip, port := Port, connections := Connections, tls := Tls, token := Token}) ->
    ok = persistent_term:put({?MODULE, Front}, read_token(Token)),
    Folder = cluster_settings:folder(),
    [
        {bind_address, Ip},
        {port, Port},
        {ipfamily, family(Ip)},
        {server_name, "cluster"},
        {server_root, Folder},
        {document_root, Folder},
        {server_tokens, none},
        {max_clients, Connections},
        {max_content_length, ?MOST_BODY},
        {max_body_size, ?MOST_BODY + 1},
        {max_header_size, ?MOST_HEADERS},
        {max_uri_size, ?MOST_PATH},
        {customize, ?MODULE},
        {modules, [module(Front)]}
        | socket(Tls)
    ].

%% @private
%% @doc Changes a header of a request: a call of `inets'. It would take a chunk of any size into memory, so a body in
%% chunks gets an unknown encoding. It refuses a length equal to its limit if the client expects `100 Continue', so its
%% limit is the limit of a value plus one, and a length equal to that is changed to a larger one.
request_header({"transfer-encoding", _}) -> {true, {"transfer-encoding", "unknown"}};
request_header({"content-length", ?LIMIT}) -> {true, {"content-length", ?LIMIT ++ "0"}};
request_header(Header) -> {true, Header}.

%% @private
response_header(Header) -> {true, Header}.

%% @private
response_default_headers() -> [].

family(Ip) when tuple_size(Ip) =:= 4 -> inet;
family(_) -> inet6.

module(clients) -> cluster_client_front;
module(admin) -> cluster_admin_front.

socket(none) ->
    [];
socket({CertFile, KeyFile}) ->
    [{socket_type, {ssl, [{certfile, CertFile}, {keyfile, KeyFile}, {versions, ['tlsv1.3', 'tlsv1.2']}]}}].

read_token(none) ->
    none;
read_token(File) ->
    {ok, Text} = file:read_file(File),
    string:trim(Text).

%% @doc Responds to a request by a function, unless the request doesn't have the front's token: a call of a front's
%% module by `inets'. The response to HEAD has no body.
-spec do(clients | admin, #mod{}, fun((request()) -> response())) -> {proceed, list()}.
do(Front, #mod{method = Method, request_uri = Uri, parsed_header = Headers, entity_body = Body}, Respond) ->
    {Path, Query} = split(Uri),
    Request = #{method => Method, path => Path, query => Query, headers => Headers, body => iolist_to_binary(Body)},
    {Status, Extra, Text} = with_token(persistent_term:get({?MODULE, Front}), Request, Respond),
    Bytes = iolist_to_binary(Text),
    Head = [{code, Status}, {content_length, integer_to_list(byte_size(Bytes))} | Extra],
    {proceed, [{response, {response, Head, body(Method, Bytes)}}]}.

split(Uri) ->
    case string:split(Uri, "?") of
        [Path] -> {Path, ""};
        [Path, Query] -> {Path, Query}
    end.

body("HEAD", _) -> nobody;
body(_, Bytes) -> Bytes.

%% Checks the token of a request. The health of a node isn't secret.
with_token(none, Request, Respond) ->
    Respond(Request);
with_token(_, #{path := "/health"} = Request, Respond) ->
    Respond(Request);
with_token(Token, #{headers := Headers} = Request, Respond) ->
    case [Given || {"authorization", "Bearer " ++ Given} <- Headers] of
        [Given] ->
            case is_equal(Token, unicode:characters_to_binary(Given)) of
                true -> Respond(Request);
                false -> unauthorized()
            end;
        _ ->
            unauthorized()
    end.

%% Compares two tokens, in a time that reveals nothing of them.
is_equal(Token, Given) ->
    crypto:hash_equals(crypto:hash(sha256, Token), crypto:hash(sha256, Given)).

unauthorized() ->
    add_headers([{"www-authenticate", "Bearer"}], json(401, #{refused => <<"NoToken">>})).

%% ---- responses

%% @doc Returns the health of this node, without waiting for a process or a disk.
-spec health() -> response().
health() ->
    IsReady = cluster_life:is_ready(),
    Status = if IsReady -> 200; true -> 503 end,
    json(Status, #{ready => IsReady, full => cluster_space:is_full(), down => cluster_wire:down()}).

%% @doc Returns the response to a request that is refused.
-spec refusal(cluster_refusal:refused()) -> response().
refusal({refused, Name}) -> json(status(Name), #{refused => cluster_refusal:text(Name)});
refusal({perhaps, Name}) -> json(503, #{refused => cluster_refusal:text(Name), perhaps => true});
refusal({perhaps, Name, For}) -> json(503, #{refused => cluster_refusal:text(Name), perhaps => true, for => For}).

status(stale_context) -> 409;
status(Name) when Name =:= bad_key; Name =:= bad_value; Name =:= bad_clock; Name =:= bad_context -> 400;
status(Name) when Name =:= two_contexts; Name =:= bad_quorum; Name =:= bad_body -> 400;
status(Name) when Name =:= clock_full; Name =:= counter_full -> 400;
status(no_such_path) -> 404;
status(bad_method) -> 405;
status(_) -> 503.

%% @doc Returns a response with a JSON body.
-spec json(Status :: 200..505, map()) -> response().
json(Status, Members) ->
    {Status, [{content_type, "application/json"}], [jiffy:encode(Members), "\n"]}.

%% @doc Adds headers to a response.
-spec add_headers([{atom() | string(), string()}], response()) -> response().
add_headers(More, {Status, Headers, Body}) ->
    {Status, More ++ Headers, Body}.
