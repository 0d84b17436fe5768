%% One number a function.
-module(answer).
-export([answer/0, least/0, greatest/0]).

answer() -> 42.

least() -> -134217728.

greatest() -> 134217727.
