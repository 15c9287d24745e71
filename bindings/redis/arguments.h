/* What COMMAND DOCS tells of the arguments of each command. Each list ends with an argument that has no name. */
#ifndef ARGUMENTS_H
#define ARGUMENTS_H

#include "server.h"

extern RedisModuleCommandArg arguments_of_set[], arguments_of_field[], arguments_of_mget[], arguments_of_fields[],
    arguments_of_add[], arguments_of_cas[], arguments_of_key[], arguments_of_range[], arguments_of_prefix[], arguments_of_count[],
    arguments_of_scan[], arguments_of_pop[], arguments_of_delrange[];

#endif
