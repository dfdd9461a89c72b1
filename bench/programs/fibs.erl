%% Sixteen processes that each compute the Fibonacci number of NUMBER, by two calls for each number.
-module(fibs).
-export([main/1]).

fib(N) when N < 2 -> N;
fib(N) -> fib(N - 1) + fib(N - 2).

wait(0, Sum) -> io:format("~p~n", [Sum]);
wait(Missing, Sum) -> receive N -> wait(Missing - 1, Sum + N) end.

main(_) ->
    To = self(),
    [spawn(fun() -> To ! fib(NUMBER) end) || _ <- lists:seq(1, 16)],
    wait(16, 0).
