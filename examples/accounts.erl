%% Accounts as tagged tuples in a list, and what is done to them.
-module(accounts).
-export([open/1, done/2, all_done/2, total/1, fee/1, examples/0]).

%% An account is {account, Name, Balance, State}; its state is open, closed or {held, Reason}.
open(Name) when is_atom(Name) ->
    {account, Name, 0, open}.

%% The accounts after an order, or why it can't be done.
done({pay_in, Name, Amount}, Accounts) when is_integer(Amount), Amount > 0 ->
    changed(Name, Amount, Accounts);
done({pay_out, Name, Amount}, Accounts) when is_integer(Amount), Amount > 0 ->
    changed(Name, -Amount, Accounts);
done({move, From, To, Amount}, Accounts) when is_integer(Amount), Amount > 0 ->
    case changed(From, -Amount, Accounts) of
        {ok, Changed} -> changed(To, Amount, Changed);
        Error -> Error
    end;
done(_, _) ->
    {error, no_order}.

changed(Name, By, [{account, Name, Balance, State} | Rest]) ->
    After = Balance + By,
    case State of
        open when After >= 0 -> {ok, [{account, Name, After, State} | Rest]};
        open -> {error, {short_of, -After}};
        closed -> {error, closed};
        {held, Reason} -> {error, {held, Reason}}
    end;
changed(Name, By, [Account | Rest]) ->
    case changed(Name, By, Rest) of
        {ok, Changed} -> {ok, [Account | Changed]};
        Error -> Error
    end;
changed(Name, _, []) ->
    {error, {no_account, Name}}.

%% The accounts after some orders, up to the first that can't be done.
all_done([Order | Orders], Accounts) ->
    case done(Order, Accounts) of
        {ok, Changed} -> all_done(Orders, Changed);
        {error, Why} -> {stopped, Order, Why, Accounts}
    end;
all_done([], Accounts) ->
    {ok, Accounts}.

total(Accounts) ->
    lists_again:sum(balances(Accounts)).

balances([{account, _, Balance, _} | Accounts]) ->
    [Balance | balances(Accounts)];
balances([]) ->
    [].

%% What an order costs.
fee(Order) ->
    case Order of
        {_, _} -> 0;
        {pay_in, _, _} -> 1;
        {_, _, Amount} -> 2 + Amount div 100;
        {_, From, To, _} when From =:= To -> 0;
        {_, _, _, Amount} -> max(3, Amount div 50)
    end.

examples() ->
    [{account, rose, 100, open}, {account, tom, 25, closed}, {account, may, 0, {held, new}}].
