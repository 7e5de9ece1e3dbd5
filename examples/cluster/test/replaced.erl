%% @doc A module with one function replaced by a function of a test.
-module(replaced).

-export([with/3]).
-export([call/3]).

%% @doc Runs a test with another function in place of a module's, whose arguments it gets as a list. Tests of other
%% functions may be in this one.
with({Module, Name, Arity}, Function, Test) ->
    ok = persistent_term:put({?MODULE, Module, Name}, Function),
    {module, Module} = code:ensure_loaded(Module),
    File = code:which(Module),
    {ok, {Module, [{abstract_code, {raw_abstract_v1, Forms}}]}} = beam_lib:chunks(File, [abstract_code]),
    {ok, Module, Code} = compile:forms([with_call(Form, Module, Name, Arity) || Form <- Forms]),
    {module, Module} = code:load_binary(Module, File, Code),
    try
        Test()
    after
        _ = code:purge(Module),
        {module, Module} = code:load_file(Module)
    end.

%% @private
call(Module, Name, Arguments) ->
    (persistent_term:get({?MODULE, Module, Name}))(Arguments).

with_call({function, At, Name, Arity, _}, Module, Name, Arity) ->
    Arguments = [{var, At, list_to_atom("A" ++ integer_to_list(Number))} || Number <- lists:seq(1, Arity)],
    List = lists:foldr(fun(Argument, Rest) -> {cons, At, Argument, Rest} end, {nil, At}, Arguments),
    Names = [{atom, At, Module}, {atom, At, Name}],
    Call = {call, At, {remote, At, {atom, At, ?MODULE}, {atom, At, call}}, Names ++ [List]},
    {function, At, Name, Arity, [{clause, At, Arguments, [], [Call]}]};
with_call(Form, _, _, _) ->
    Form.
