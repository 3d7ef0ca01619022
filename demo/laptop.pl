% Rain and wind on house 4, as an installer's laptop saved the file: each line ends with the bytes 13 and 10.
% Both are layout, and an end mark leaves them; so it lists like the same lines with byte 10 alone.

rain(house4, 12). % millimetres in the last hour
gust(house4, 9.5). /* metres a second,
                      the highest of ten minutes */

storm(House) :-
    gust(House, Speed),
    Speed > 15.0.

close_roof(House) :- rain(House, Fallen), Fallen >= 2, !.
close_roof(House) :- storm(House).
