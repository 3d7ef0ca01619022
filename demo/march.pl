% Vent rules of a glasshouse: the March incident, reconstructed.
%
% The block that starts with /* below was to be out of use, down to its own */ at the end of the ruled line.
% An older comment stands inside it. Comments do not nest: the older one's */ ends both, and the clause behind it is live.
% The closing mark that is then left over stands in a % line, which is a comment by itself, so nothing complains.

% The two vanes: where the wind comes from, in degrees from north.
vane(west, 350).
vane(east, 10).

/* Out of use: for 350 and 10 this gives 180.
/* The mean of two bearings. */
mean_bearing(A, B, M) :- M is (A + B) / 2.
% ------------------------------------------- */

% The mean of two bearings, the short way round: for 350 and 10 it is 0.
mean_bearing(A, B, M) :- abs(A - B) =< 180, M is (A + B) // 2.
mean_bearing(A, B, M) :- abs(A - B) > 180, M is (A + B + 360) // 2 mod 360.

% Vents open on the side away from the wind; the first mean that is found decides.
open_vents(Side) :- vane(west, A), vane(east, B), mean_bearing(A, B, M), lee(M, Side), !.

lee(M, north) :- M > 90, M < 270.
lee(M, south) :- M =< 90.
lee(M, south) :- M >= 270.
