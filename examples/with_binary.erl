%% Refused: a binary.
-module(with_binary).
-export([zeros/1]).

zeros(Bytes) ->
    zeros(Bytes, 0).

zeros(<<0, Rest/binary>>, Count) ->
    zeros(Rest, Count + 1);
zeros(<<_, Rest/binary>>, Count) ->
    zeros(Rest, Count);
zeros(<<>>, Count) ->
    Count.
