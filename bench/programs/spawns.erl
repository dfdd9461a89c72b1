%% Many processes are started, and each sends one message.
-module(spawns).
-export([main/1]).

main(_) ->
    Self = self(),
    Sum = spawn(fun() -> sum(0, NUMBER, Self) end),
    start(Sum, 0),
    receive {sum, S} -> io:format("~p~n", [S]) end.

start(_, NUMBER) -> ok;
start(Sum, N) ->
    Worker = spawn(fun() -> receive {work, M} -> Sum ! {add, M} end end),
    Worker ! {work, N},
    start(Sum, N + 1).

sum(S, 0, Main) -> Main ! {sum, S};
sum(S, Missing, Main) -> receive {add, N} -> sum(S + N, Missing - 1, Main) end.
