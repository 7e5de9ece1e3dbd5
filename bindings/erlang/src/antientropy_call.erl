%% @private
%% @doc The result of a call of the NIF library, which may ask for more: to wait for the gate of a handle, to raise
%% `badarg', or to start a renewal.
-module(antientropy_call).

-export([result/1]).

-type asked() ::
    {wait | badarg, Name :: atom(), Arguments :: [term()], Reads :: boolean(), IsLong :: boolean()}
    | {renew, antientropy:replica(), Result :: term()}.

%% @doc Returns the result of a call.
%%
%% If the gate of its handle is taken, the process waits in line for it, in no scheduler, and then makes the call again.
%% If no process can be started for a renewal, a later call asks for it again.
-spec result(asked() | term()) -> term().
result({wait, Name, [Handle | _] = Arguments, Reads, IsLong}) ->
    case wait(Handle, Reads, IsLong) of
        ok -> result(apply(antientropy_nif, Name, Arguments));
        Refused -> Refused
    end;
result({badarg, Name, Arguments, _, _}) ->
    antientropy_error:raise(Name, Arguments);
result({renew, Replica, Result}) ->
    try
        _ = spawn(antientropy_renewal, renew_if_due, [Replica]),
        Result
    catch
        error:system_limit -> Result
    end;
result(Result) ->
    Result.

%% Waits until this process has the gate of a handle. The receive skips older messages, since the reference is new.
wait(Handle, Reads, IsLong) ->
    Turn = make_ref(),
    case antientropy_nif:wait(Handle, Reads, IsLong, Turn) of
        ok ->
            receive
                Turn -> ok
            end;
        Refused ->
            Refused
    end.
