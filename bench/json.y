%define api.prefix {json_}
%define api.pure full
%define api.value.type {int}
%param {struct source *source}

%code requires {
#include "source.h"
}

%code {
static int json_lex(int *value, struct source *source)
{
    (void)value;
    return next_token(source);
}

static void json_error(struct source *source, const char *message)
{
    (void)source;
    (void)message;
}
}

%token OPEN_OBJECT CLOSE_OBJECT OPEN_ARRAY CLOSE_ARRAY COLON COMMA STRING NUMBER TRUE_WORD FALSE_WORD NULL_WORD

%%

value: OPEN_OBJECT members CLOSE_OBJECT     { record(source, 0); }
     | OPEN_ARRAY elements CLOSE_ARRAY      { record(source, 1); }
     | STRING                               { record(source, 2); }
     | NUMBER                               { record(source, 3); }
     | TRUE_WORD                            { record(source, 4); }
     | FALSE_WORD                           { record(source, 5); }
     | NULL_WORD                            { record(source, 6); } ;
members: pair more_members                  { record(source, 7); }
       | %empty                             { record(source, 8); } ;
more_members: COMMA pair more_members       { record(source, 9); }
            | %empty                        { record(source, 10); } ;
pair: STRING COLON value                    { record(source, 11); } ;
elements: value more_elements               { record(source, 12); }
        | %empty                            { record(source, 13); } ;
more_elements: COMMA value more_elements    { record(source, 14); }
             | %empty                       { record(source, 15); } ;
