/* Finds a rule by its name. */
#include "fake_rules.h"

#include <stddef.h>
#include <string.h>

#define FAKE_RULE_NAME(number, name) name,

enum fake_rule fake_rule_named(const char *name)
{
    static const char *const names[FAKE_RULE_COUNT] = { "", FAKE_RULES(FAKE_RULE_NAME) };
    int rule = 0;

    if (name == NULL)
        return FAKE_NONE;
    while (rule < FAKE_RULE_COUNT && strcmp(name, names[rule]) != 0)
        rule++;
    return (enum fake_rule)rule;
}
