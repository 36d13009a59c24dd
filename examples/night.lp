% A night at the pebble dock, with variables: which of four crews serves which of five ships, and at which of three gates.
% gringo grounds it; README says how it is read and solved.
ship(1..5). crew(1..4). gate(1..3).
hours(1,3). hours(2,2). hours(3,2). hours(4,4). hours(5,1).
deep(2). deep(4).          % ships that gate 1 cannot take
tired(3).                  % a crew that works one ship at most

% each ship has one crew and one gate
serves(C,S) : crew(C) :- ship(S).
lies(S,G) : gate(G) :- ship(S).
:- deep(S), lies(S,1).

% no crew works more than five hours, a tired one serves one ship only
:- crew(C), #sum { H,S : serves(C,S), hours(S,H) } >= 6.
:- tired(C), #sum { 1,S : serves(C,S) } >= 2.

% a gate has two places
:- gate(G), #sum { 1,S : lies(S,G) } >= 3.

% a crew that serves some ship is called; somebody stays at home
called(C) :- serves(C,S).
:- called(C) : crew(C).

#show serves/2.
#show lies/2.
