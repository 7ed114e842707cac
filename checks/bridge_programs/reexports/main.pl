% Names that pass through several modules, some under another name, some but not all.
:- module(main, [main/0]).
:- use_module(front, [one/0, another/0, three/0 as third]).
:- use_module(rest).

main :- one, another, third, four, six.
% SWI-Prolog makes clauses for imports under another name, which the bridge passes over.
%- main:main/0 main:third/0
%- main:third/0 back:three/0
%+ main:main/0 back:three/0
%- main:main/0 front:another/0
%- front:another/0 middle:two/0
%+ main:main/0 middle:two/0
