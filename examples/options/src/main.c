#include <list.h>
#include "names.h"
#include "version.h"

count main_count(void) {
    return list_count(first) + version;
}
