%define api.prefix {house_}
%define api.pure full
%define api.value.type {int}
%param {struct source *source}

%code requires {
#include "source.h"
}

%code {
static int house_lex(int *value, struct source *source)
{
    (void)value;
    return next_token(source);
}

static void house_error(struct source *source, const char *message)
{
    (void)source;
    (void)message;
}
}

%token RESTORE NAME IN AND

%%

order: RESTORE names            { record(source, 0); } ;
names: NAME within more         { record(source, 1); } ;
within: IN NAME                 { record(source, 2); }
      | %empty                  { record(source, 3); } ;
more: AND names                 { record(source, 4); }
    | %empty                    { record(source, 5); } ;
