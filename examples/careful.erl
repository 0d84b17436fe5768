%% Failures that are raised, caught and raised again.
-module(careful).
-export([divided/2, first/2, sum/1, outcome/2, named/2, both/2]).

%% A quotient, or which of the two went wrong.
divided(Value, By) ->
    try Value div By of
        Quotient -> {ok, Quotient}
    catch
        error:badarith when By =:= 0 -> {error, by_zero};
        error:badarith -> {error, no_integer}
    end.

%% The first element that is past a bound; a throw ends the search.
first(Bound, List) ->
    try search(Bound, List) of
        ok -> none
    catch
        throw:{found, Value} -> {found, Value}
    end.

search(Bound, [Value | _]) when Value > Bound ->
    throw({found, Value});
search(Bound, [_ | Rest]) ->
    search(Bound, Rest);
search(_, []) ->
    ok.

%% The sum of a list, or why there is none.
sum(List) ->
    case catch added(List) of
        {'EXIT', {Reason, _}} -> {failed, Reason};
        {'EXIT', Reason} -> {left, Reason};
        Sum -> Sum
    end.

added([stop | _]) ->
    exit(stopped);
added([Value | Rest]) ->
    Value + added(Rest);
added([]) ->
    0.

%% How a step ends, whatever its class.
outcome(Step, Value) ->
    try step(Step, Value) of
        Result -> {returned, Result}
    catch
        throw:Reason -> {thrown, Reason};
        exit:Reason -> {left, Reason};
        error:Reason -> {failed, Reason}
    end.

step(half, Value) when Value rem 2 =:= 0 ->
    Value div 2;
step(half, Value) ->
    throw({odd, Value});
step(head, Value) ->
    hd(Value);
step(match, Value) ->
    {ok, Result} = Value,
    Result;
step('if', Value) ->
    if
        Value > 0 -> positive;
        Value < 0 -> negative
    end;
step('case', Value) ->
    case Value of
        yes -> true;
        no -> false
    end;
step(leave, Value) ->
    exit({asked, Value});
step(fail, Value) ->
    error(Value).

%% The failure of a step is raised again, under the step's name.
named(Step, Value) ->
    try
        step(Step, Value)
    catch
        Class:Reason:Trace -> erlang:raise(Class, {Step, Reason}, Trace)
    end.

%% Two halves, the second of them in a try of its own.
both(One, Two) ->
    try
        Half = step(half, One),
        Other =
            try
                step(half, Two)
            catch
                throw:{odd, _} -> Half
            end,
        {Half, Other}
    catch
        throw:_ -> none
    end.
