% Reads clauses with SWI-Prolog's read_term/2, in a module that knows document 01's operators only.
% Standard input: the number of operators, a line `PRIORITY KIND NAME` for each, then cases: a line with a length, that many bytes, a newline.
% Standard output, a line for each case: `refused`, `none` where only layout was left, or `term END TERM`. END is the offset behind the clause,
% TERM the term as JSON, canonical: operators and lists as compounds, variables by their names.
:- initialization(main, main).
:- multifile user:message_hook/3.

% a deprecated form is read all the same
user:message_hook(_, warning, _).

main :-
    set_stream(user_input, encoding(octet)),
    forall(current_op(_, Kind, reading:Name), catch(op(0, Kind, reading:Name), _, true)),
    read_line_to_string(user_input, Line),
    number_string(Operators, Line),
    forall(between(1, Operators, _), operator),
    set_prolog_flag(reading:double_quotes, string),
    cases.

operator :-
    read_line_to_string(user_input, Line),
    split_string(Line, " ", "", [Priority, Kind, Name]),
    number_string(Number, Priority),
    atom_string(KindAtom, Kind),
    atom_string(NameAtom, Name),
    op(Number, KindAtom, reading:NameAtom).

cases :-
    read_line_to_string(user_input, Line),
    (   Line == end_of_file
    ->  true
    ;   number_string(Length, Line),
        read_string(user_input, Length, Text),
        read_line_to_string(user_input, _),
        answer(Text),
        cases
    ).

answer(Text) :-
    setup_call_cleanup(open_string(Text, Stream), catch(clause_of(Stream, Text), _, writeln(refused)), close(Stream)).

clause_of(Stream, Text) :-
    read_term(Stream, Term, [module(reading), variable_names(Names), syntax_errors(error), double_quotes(string)]),
    character_count(Stream, End),
    (   Term == end_of_file, \+ sub_string(Text, _, _, _, "end_of_file")
    ->  writeln(none)
    ;   maplist(named, Names),
        format("term ~w ", [End]),
        put_term(Term),
        nl
    ).

named(Name = '$named'(Name)).

put_term(Term) :- var(Term), !, put_row("v", '_').
put_term('$named'(Name)) :- !, put_row("v", Name).
put_term(Term) :- is_dict(Term), !, put_row("d", dict).
put_term(Term) :- integer(Term), !, put_row("i", Term).
put_term(Term) :- rational(Term), !, put_row("r", Term).
put_term(Term) :- float(Term), !, put_row("f", Term).
put_term(Term) :- string(Term), !, put_row("s", Term).
put_term([]) :- !, put_row("[]", '').
put_term(Term) :- atom(Term), !, put_row("a", Term).
put_term(Term) :-
    compound_name_arguments(Term, Name, Arguments),
    format("[\"c\","),
    (   Name == [] -> put_text('[](') ; put_text(Name) ),
    forall(member(Argument, Arguments), (write(','), put_term(Argument))),
    write(']').

put_row(Kind, Text) :-
    format("[\"~s\",", [Kind]),
    put_text(Text),
    write(']').

put_text(Text) :-
    format(codes(Codes), "~w", [Text]),
    write('"'),
    maplist(put_escaped, Codes),
    write('"').

put_escaped(Code) :- Code >= 32, Code < 127, Code =\= 0'", Code =\= 0'\\, !, put_plain(Code).
put_escaped(Code) :- format("\\u~|~`0t~16r~4+", [Code]).

put_plain(Code) :- char_code(Char, Code), put_char(Char).
