/* The C sides as one compiler builds them; BUILT is the name that they have in the program. */
#include "sides.h"

#include "climbing.h"
#include "bounding.h"

built_sides BUILT = {
    {
        {climbing_judge, climbing_rewrite, climbing_response, climbing_verdict, climbing_least_interval, climbing_next,
         climbing_list, climbing_replay},
        {climbing_judge, climbing_rewrite, bounding_response, bounding_verdict, bounding_least_interval, bounding_next,
         bounding_list, climbing_replay},
    },
    {
        {climbing_judge, climbing_rewrite, climbing_assured_response, climbing_verdict, climbing_least_interval,
         climbing_assured_next, climbing_assured_list, climbing_replay},
        {climbing_judge, climbing_rewrite, bounding_assured_response, bounding_verdict, bounding_least_interval,
         bounding_assured_next, bounding_assured_list, climbing_replay},
    },
};
