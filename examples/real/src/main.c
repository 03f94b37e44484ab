#include "tabulate/log.h"
#include "tabulate/platform.h"
#include "tabulate/sheet.h"
#include "tabulate/version.h"

#include <stdio.h>
#include <stdlib.h>
#include <string.h>

static enum status usage(void)
{
    fputs("usage: tabulate [-v] FILE\n"
          "Prints the table that the file describes.\n",
          stderr);
    return STATUS_USAGE;
}

static enum status show(const char *path)
{
    struct sheet sheet = {0};
    struct strbuf made = {0};
    enum status status = sheet_read(&sheet, path);
    if (status == STATUS_OK)
        status = sheet_compute(&sheet);
    if (status == STATUS_OK)
        status = sheet_show(&sheet, &made);
    if (status == STATUS_OK)
        fputs(made.text, stdout);
    else
        LOG(ERROR, "%s:%d: %s: %s", path, sheet.line, status_text(status), sheet.wrong ? sheet.wrong : "");
    strbuf_free(&made);
    sheet_free(&sheet);
    return status;
}

int main(int words, char **word)
{
    if (words > 1 && strcmp(word[1], "-v") == 0) {
        log_least = LOG_DEBUG;
        words--;
        word++;
    }
    if (words != 2)
        return usage();
    LOG(INFO, "tabulate " TABULATE_VERSION " by " COMPILER_NAME " on " PLATFORM_NAME ", %s",
        writes_to_terminal() ? "to a terminal" : "to a file");
    enum status status = show(word[1]);
    if (fflush(stdout) != 0)
        status = STATUS_READ;
    LOG(DEBUG, "ends with %s", status_name(status));
    return status == STATUS_OK ? EXIT_SUCCESS : (int)status;
}
