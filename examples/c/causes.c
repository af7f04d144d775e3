/* The causes of refusals by name and in words, and the version. */
#include <string.h>

#include "check.h"

/* Prints why a service refused, with the place if the cause has one. */
static void say_refusal(oracle_answer answer)
{
    printf("refused %llu: %s", (unsigned long long)answer.number,
           oracle_cause_text(answer.number));
    if (*oracle_place_text(answer.number) != '\0')
        printf("; %s %llu", oracle_place_text(answer.number), (unsigned long long)answer.value);
    printf("\n");
}

int main(void)
{
    printf("version %s\n", ORACLE_VERSION);
    for (uint64_t number = ORACLE_CAUSE_TABLE; number <= ORACLE_CAUSE_DEPTH; number++) {
        say_refusal((oracle_answer){number, 7});
        holds(*oracle_cause_text(number) != '\0', "a text for each cause");
    }
    holds(ORACLE_CAUSE_TABLE == 1 && ORACLE_CAUSE_WORK_LINES == 10 && ORACLE_CAUSE_DEPTH == 18,
          "the numbers of the causes");
    holds(strcmp(oracle_cause_text(ORACLE_CAUSE_GRANT), "the grant is over 1,024") == 0,
          "the text of 9");
    holds(strcmp(oracle_place_text(ORACLE_CAUSE_NODE), "at node") == 0, "the place of 5");
    holds(strcmp(oracle_place_text(ORACLE_CAUSE_GRANT), "") == 0, "9 has no place");
    const uint64_t none[] = {ORACLE_CAUSE_NONE, ORACLE_CAUSE_DEPTH + 1, UINT64_MAX};
    for (size_t i = 0; i < 3; i++)
        holds(strcmp(oracle_cause_text(none[i]), "") == 0 &&
              strcmp(oracle_place_text(none[i]), "") == 0, "other numbers have no text");
    return all_as_expected ? 0 : 1;
}
