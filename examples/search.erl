%% Searches: in a tree, among numbers, among literals.
-module(search).
-export([inserted/3, found/2, to_list/1, root/1, gcd/2, word/1, kind/1, days/2]).

%% A tree is leaf or {Left, Key, Value, Right}.
inserted(Key, Value, {Left, Here, Old, Right}) ->
    if
        Key < Here -> {inserted(Key, Value, Left), Here, Old, Right};
        Key > Here -> {Left, Here, Old, inserted(Key, Value, Right)};
        true -> {Left, Key, Value, Right}
    end;
inserted(Key, Value, leaf) ->
    {leaf, Key, Value, leaf}.

found(Key, {Left, Here, _, _}) when Key < Here ->
    found(Key, Left);
found(Key, {_, Here, Value, _}) when Key == Here ->
    {value, Value};
found(Key, {_, _, _, Right}) ->
    found(Key, Right);
found(_, leaf) ->
    none.

to_list({Left, Key, Value, Right}) ->
    lists_again:append(to_list(Left), [{Key, Value} | to_list(Right)]);
to_list(leaf) ->
    [].

%% The greatest number whose square is not past this one, which has 28 bits.
root(Number) when is_integer(Number), Number >= 0 ->
    root(Number, 0, min(Number, 11585) + 1).

root(_, Low, High) when High - Low =< 1 ->
    Low;
root(Number, Low, High) ->
    Middle = (Low + High) bsr 1,
    case Middle * Middle of
        Square when Square =< Number -> root(Number, Middle, High);
        _ -> root(Number, Low, Middle)
    end.

gcd(A, 0) ->
    abs(A);
gcd(A, B) ->
    gcd(B, A rem B).

word(Number) ->
    case Number of
        0 -> "none";
        1 -> "one";
        2 -> "two";
        _ when is_integer(Number), Number > 2 -> "many";
        _ -> []
    end.

kind(Term) when is_boolean(Term) -> boolean;
kind(Term) when is_atom(Term) -> atom;
kind(Term) when is_number(Term) -> number;
kind([_ | _]) -> list;
kind([]) -> nil;
kind({}) -> unit;
kind(Term) when is_tuple(Term) -> {tuple, tuple_size(Term)}.

%% The days of a month.
days(february, Year) ->
    case Year rem 4 =:= 0 andalso (Year rem 100 =/= 0 orelse Year rem 400 =:= 0) of
        true -> 29;
        false -> 28
    end;
days(Month, _) ->
    case lists:member(Month, [april, june, september, november]) of
        true -> 30;
        false -> 31
    end.
