%% A thousand processes, each of which counts to STEPS and then sends itself a message, NUMBER times.
-module(pool).
-export([main/1]).

count(N) when N < STEPS -> count(N + 1);
count(_) -> ok.

worker(To) ->
    receive
        {work, 0} -> count(0), To ! done;
        {work, Left} -> count(0), self() ! {work, Left - 1}, worker(To)
    end.

wait(0) -> io:format("done~n");
wait(Missing) -> receive done -> wait(Missing - 1) end.

main(_) ->
    To = self(),
    [spawn(fun() -> worker(To) end) ! {work, NUMBER} || _ <- lists:seq(1, 1000)],
    wait(1000).
