%% The usual calls on lists, written once more.
-module(lists_again).
-export([append/2, reverse/1, member/2, sum/1, take/2, zip/2]).

append([Head | Tail], List) ->
    [Head | append(Tail, List)];
append([], List) ->
    List.

reverse(List) ->
    reverse(List, []).

reverse([Head | Tail], Done) ->
    reverse(Tail, [Head | Done]);
reverse([], Done) ->
    Done.

member(Item, [Item | _]) ->
    true;
member(Item, [_ | Tail]) ->
    member(Item, Tail);
member(_, []) ->
    false.

sum(List) ->
    sum(List, 0).

sum([Head | Tail], Sum) ->
    sum(Tail, Sum + Head);
sum([], Sum) ->
    Sum.

%% The first so many elements, or all where there are fewer.
take(Count, [Head | Tail]) when Count > 0 ->
    [Head | take(Count - 1, Tail)];
take(_, _) ->
    [].

zip([A | As], [B | Bs]) ->
    [{A, B} | zip(As, Bs)];
zip([], []) ->
    [].
