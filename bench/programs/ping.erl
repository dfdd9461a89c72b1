%% Two processes send one message to and fro.
-module(ping).
-export([main/1]).

main(_) ->
    Self = self(),
    Pong = spawn(fun pong/0),
    Ping = spawn(fun() -> ping(Pong, Self) end),
    Ping ! {hit, NUMBER},
    receive done -> io:format("done~n") end.

ping(Pong, Main) ->
    receive
        {hit, 0} -> Main ! done;
        {hit, Left} -> Pong ! {hit, self(), Left - 1}, ping(Pong, Main)
    end.

pong() ->
    receive {hit, Ping, Left} -> Ping ! {hit, Left}, pong() end.
