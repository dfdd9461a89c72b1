-module(arrays).
-export([main/1]).

% An array of a thousand numbers goes to and fro between two processes: a list is copied each time.
main(_) ->
    Main = self(),
    Left = spawn(fun() -> left(Main) end),
    Right = spawn(fun() -> right() end),
    Left ! {Right, lists:seq(0, 999), NUMBER},
    receive Size -> io:format("~p~n", [Size]) end.

left(Main) ->
    receive
        {_, Items, 0} -> Main ! length(Items);
        {Right, Items, Times} -> Right ! {self(), Items, Times - 1}, left(Main)
    end.

right() ->
    receive
        {Left, Items, Times} -> Left ! {self(), Items, Times}, right()
    end.
