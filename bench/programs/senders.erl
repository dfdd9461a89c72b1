%% Eight processes send to one.
-module(senders).
-export([main/1]).

main(_) ->
    Self = self(),
    Sum = spawn(fun() -> sum(0, 8 * NUMBER, Self) end),
    [spawn(fun() -> send(Sum, 0) end) || _ <- lists:seq(1, 8)],
    receive {sum, S} -> io:format("~p~n", [S]) end.

send(_, NUMBER) -> ok;
send(Sum, N) -> Sum ! {add, N}, send(Sum, N + 1).

sum(S, 0, Main) -> Main ! {sum, S};
sum(S, Missing, Main) -> receive {add, N} -> sum(S + N, Missing - 1, Main) end.
