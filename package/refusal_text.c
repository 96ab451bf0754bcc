/* What a number means, for logs and for whoever has to act on it. docs/FORMAT.md has the exact grounds. */
#include "waldumre.h"

const char *waldumre_refusal_text(uint64_t number)
{
    switch (number) {
    case 0:
        return "accepted";
    case WALDUMRE_CATALOGUE:
        return "the catalogue is empty, too long, ends too early, or has a kind or number that is not allowed";
    case WALDUMRE_VALUES:
        return "the values are not as many as the catalogue says";
    case WALDUMRE_PERMIT_FORM:
        return "the permit list is too long (2,048 bytes are allowed) or not well formed";
    case WALDUMRE_PERMIT_SIZE:
        return "over 8 permits, or a permit over 256 bytes, 16 levels or 3 variables of its own";
    case WALDUMRE_PERMIT_NAMES:
        return "a permit names a relation, attribute or variable that is not there, out of reach or bound twice";
    case WALDUMRE_PERMIT_WORKSPACE:
        return "a permit is over a workspace or looks into one";
    case WALDUMRE_QUERY_FORM:
        return "the query is too long or not well formed";
    case WALDUMRE_QUERY_SIZE:
        return "the query has too many ranges, targets, levels or variables";
    case WALDUMRE_QUERY_NAMES:
        return "the query names a relation, attribute or variable that is not there, out of reach or bound twice";
    case WALDUMRE_NO_PERMIT:
        return "no permit covers what the query combines, or a NO ACCESS permit bars it";
    case WALDUMRE_REWRITTEN_BUFFER:
        return "the buffer for the rewritten query is too short";
    case WALDUMRE_ANSWER_BUFFER:
        return "more rows than fit the answer buffer, which holds the first of them";
    case WALDUMRE_TEXT_FORM:
        return "the text is over 2,000 bytes or outside the grammar";
    case WALDUMRE_TEXT_NAMES:
        return "the name list is broken or has a name twice, or the text has a name that is unknown, out of reach or bound twice";
    case WALDUMRE_RECORDS_BUFFER:
        return "the buffer for the query that was read is too short";
    case 53: /* of the label book, the library above this one */
        return "the answer makes no label book: not three targets, a value out of range, or a book of another size";
    default:
        return "no number of this version";
    }
}
