%% @doc An exchange with a partner, which {@link antientropy:exchange/4} opens: a sync that is polled.
%%
%% It returns the asks, takes the answers in any order, and reports its progress; the program carries the messages. It
%% lasts as long as the program wants, and puts may happen in between. A renewal or a migration ends it. Its calls are
%% calls of its replica, which it keeps. They are refused as `empty' after {@link close/1}, and if the replica is
%% closed. One that no process has any more is closed when the next one of its replica is opened, or by {@link
%% antientropy:drop_sessions/1}. {@link antientropy:sync/4} is a whole sync in one call.
-module(antientropy_exchange).

-export([asks/1, take/2, lose/2, go_on/1, progress/1, left/1, close/1]).

-import(antientropy_call, [result/1]).

-export_type([exchange/0, bounds/0, verdict/0, progress/0, report/0, cause/0]).

-opaque exchange() :: reference().
-type bounds() :: #{
    asks => non_neg_integer(),
    bytes => non_neg_integer(),
    bad => non_neg_integer(),
    lost => non_neg_integer(),
    plain => boolean()
}.
%% The most asks in flight, and bytes of the answers to them, as far as they can be estimated: one ask may always be
%% in flight, and its answer may be longer. After more bad answers or lost asks the exchange is over. If `plain', no
%% ask is an outline: that takes less of both processors, and more of the link.
-type cause() :: none | bad_message | not_asked | wrong_digest | journal_full | no_memory.
-type verdict() :: #{
    verdict := taken | left | bad | late | refused | failed,
    cause := cause(),
    accepted := non_neg_integer(),
    known := non_neg_integer()
}.
%% `left': a key of the leaf is crowded. `late': it counts as nothing. `refused': the journal or memory is full.
%% `failed': the text isn't a node's, though it has the expected digest. The counts are the new and the known versions
%% in an answer that was taken.
-type report() :: finished | waiting | left | stopped | too_many_bad | too_many_lost | failed | closed | gone.
%% `left': only leaves that were left are outstanding. `stopped': see {@link go_on/1}. `gone': the replica no longer has
%% the session.
-type progress() :: #{
    report := report(),
    cause := cause(),
    asks := non_neg_integer(),
    in_flight := non_neg_integer(),
    bytes_in_flight := non_neg_integer(),
    bad := non_neg_integer(),
    lost := non_neg_integer(),
    accepted := non_neg_integer(),
    known := non_neg_integer(),
    leaves := non_neg_integer()
}.
%% The report, the cause of `stopped', numbers of asks that were sent and of those in flight, with the bytes of the
%% answers to these as far as they can be estimated, of bad answers and lost asks, and of new versions, known versions
%% and leaves that were taken.

%% @doc Returns the asks to send now. The list is empty if all are in progress, the bounds are reached, or the exchange
%% has stopped or is over. An ask may be an outline: the partner's answer then has only the differences.
-spec asks(exchange()) -> {ok, [Ask :: binary()]} | antientropy:refused().
asks(Exchange) ->
    result(antientropy_nif:exchange_asks(Exchange)).

%% @doc Takes a partner's answer, which isn't trusted: it may be any bytes.
-spec take(exchange(), Answer :: iodata()) -> {ok, verdict()} | antientropy:refused().
take(Exchange, Answer) ->
    result(antientropy_nif:exchange_take(Exchange, Answer)).

%% @doc Counts an ask as lost if it is in flight, so that it may be sent again. Refused: `bad_message' (not an ask).
-spec lose(exchange(), Ask :: iodata()) -> ok | antientropy:refused().
lose(Exchange, Ask) ->
    result(antientropy_nif:exchange_lose(Exchange, Ask)).

%% @doc Lets asks be sent again after an answer was refused. Each ask whose answer was refused counts as lost.
-spec go_on(exchange()) -> ok | antientropy:refused().
go_on(Exchange) ->
    result(antientropy_nif:exchange_go_on(Exchange)).

%% @doc Returns the progress of the exchange.
-spec progress(exchange()) -> {ok, progress()} | antientropy:refused().
progress(Exchange) ->
    result(antientropy_nif:exchange_progress(Exchange)).

%% @doc Returns the leaves that were left, since a key in each of them is crowded.
-spec left(exchange()) -> {ok, [Leaf :: non_neg_integer()]} | antientropy:refused().
left(Exchange) ->
    result(antientropy_nif:exchange_left(Exchange)).

%% @doc Closes it: cancels its session if that is open, and drops it, with the others that have ended.
-spec close(exchange()) -> ok.
close(Exchange) ->
    result(antientropy_nif:exchange_close(Exchange)).
