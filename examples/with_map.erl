%% Refused: maps.
-module(with_map).
-export([counted/2]).

counted(Word, Counts) ->
    case Counts of
        #{Word := Count} -> Counts#{Word := Count + 1};
        _ -> Counts#{Word => 1}
    end.
