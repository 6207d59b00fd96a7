%% The exchanges of the harness over Erlang's mailboxes: a ping-pong of two, and a line of 200.
%% Run on one core: erlc exchange.erl && erl +S 1:1 -noshell -s exchange main -s init stop
-module(exchange).
-export([main/0]).

%% Two exchanges a round.
ping(_, _, 0) -> ok;
ping(Pong, X, N) ->
    Pong ! {self(), X},
    receive {Pong, Y} -> ping(Pong, Y, N - 1) end.

pong(0) -> ok;
pong(N) ->
    receive {From, X} -> From ! {self(), X + 1}, pong(N - 1) end.

ping_pong(Rounds) ->
    Pong = spawn(fun() -> pong(Rounds) end),
    timed(fun() -> ping(Pong, 0, Rounds) end).

%% Numbers go down a line of processes, each of which hands on what it takes.
relay(_, 0) -> ok;
relay(Next, N) ->
    receive X -> Next ! X, relay(Next, N - 1) end.

sink(0) -> ok;
sink(N) -> receive _ -> sink(N - 1) end.

line(Long, Numbers) ->
    First = lists:foldl(fun(_, Next) -> spawn(fun() -> relay(Next, Numbers) end) end, self(), lists:seq(1, Long - 2)),
    timed(fun() -> [First ! X || X <- lists:seq(1, Numbers)], sink(Numbers) end).

timed(Run) ->
    {Micros, _} = timer:tc(Run),
    Micros.

best(Times, Run) -> lists:min([Run() || _ <- lists:seq(1, Times)]).

main() ->
    Rounds = 500000, Numbers = 5000, Long = 200,
    P = best(5, fun() -> ping_pong(Rounds) end),
    io:format("Erlang, ping-pong: ~.1f million exchanges a second~n", [2 * Rounds / P]),
    L = best(5, fun() -> line(Long, Numbers) end),
    io:format("Erlang, a line of ~w: ~.1f million exchanges a second~n", [Long, (Long - 1) * Numbers / L]).
