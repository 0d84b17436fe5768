%% Refused: a call of a fun.
-module(with_fun).
-export([map/2, doubled/1]).

map(Fun, [Head | Tail]) ->
    [Fun(Head) | map(Fun, Tail)];
map(_, []) ->
    [].

doubled(List) ->
    map(fun(Item) -> 2 * Item end, List).
