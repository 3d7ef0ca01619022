% Vents of house 4, typed in a hurry: in the third clause a comma is missing between two arguments.
% The reader points there, at the first word that cannot stand, and not at the clause's start.

warm(house4, 27).  % degrees at noon
gust(house4, 3.2). % metres a second, the highest of ten minutes

open_vents(House) :-
    warm(House, Degrees), Degrees >= 24,
    gust(House Speed), Speed < 5.0, !.

close_vents(House) :- gust(House, Speed), Speed >= 5.0.
