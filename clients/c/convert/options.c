/* Reads the command line, and answers what asks for no conversion. */
#include "options.h"

#include <errno.h>
#include <getopt.h>
#include <stdio.h>
#include <string.h>

#include "complain.h"

static const char USAGE[] =
    "Usage: iconvd-convert [OPTION ..] [-f ENCODING] [-t ENCODING] [FILE ..]\n"
    "\n"
    "Converts text from one encoding to another by the service iconvd.\n"
    "\n"
    "  -f, --from-code=NAME   encoding of the input\n"
    "  -t, --to-code=NAME     encoding of the output; //TRANSLIT and //IGNORE may stand behind it\n"
    "  -c                     leave out what cannot be converted\n"
    "  -o, --output=FILE      write to FILE; - is standard output\n"
    "  -l, --list             list the known names\n"
    "      --service=WHERE    exec:COMMAND, unix:PATH or tcp:HOST:PORT;\n"
    "                         otherwise ICONVD of the environment, else exec:iconvd pipe\n"
    "      --stats            say at the end how many bytes and characters it was\n"
    "  -h, --help             print this help\n"
    "  -V, --version          print the version\n"
    "\n"
    "Without -f or -t it is the locale's encoding. FILE - is standard input, and so is none.\n"
    "Exit status: 0, or 1 for a text or file that cannot be converted, 64 for a wrong command\n"
    "line, 75 for a service that cannot be reached.\n";

enum { OPTION_SERVICE = 256, OPTION_STATS };

/* The exit status of what was printed on standard output. That nobody reads it is no fault. */
static int printed(void) {
    if (!ferror(stdout) && fflush(stdout) == 0)
        return 0;
    return errno == EPIPE ? EXIT_TEXT : complain(EXIT_TEXT, "write failed: %s", strerror(errno));
}

static int print(const char *text) {
    fputs(text, stdout);
    return printed();
}

static int list_names(void) {
    for (size_t i = 0; iconvd_name(i) && !ferror(stdout); i++)
        puts(iconvd_name(i));
    return printed();
}

int read_options(struct settings *settings, int count, char **words) {
    static char dash[] = "-";
    static char *standard_input[] = {dash, NULL};
    static const struct option OPTIONS[] = {
        {"from-code", required_argument, NULL, 'f'}, {"to-code", required_argument, NULL, 't'},
        {"output", required_argument, NULL, 'o'},    {"list", no_argument, NULL, 'l'},
        {"help", no_argument, NULL, 'h'},            {"version", no_argument, NULL, 'V'},
        {"stats", no_argument, NULL, OPTION_STATS},  {"service", required_argument, NULL, OPTION_SERVICE},
        {NULL, 0, NULL, 0},
    };
    *settings = (struct settings){.from = "", .to = "", .output = "-"};
    for (int option; (option = getopt_long(count, words, "f:t:co:lhV", OPTIONS, NULL)) != -1;) {
        switch (option) {
        case 'f': settings->from = optarg; break;
        case 't': settings->to = optarg; break;
        case 'c': settings->policy |= ICONVD_IGNORE; break;
        case 'o': settings->output = optarg; break;
        case OPTION_SERVICE: settings->service = optarg; break;
        case OPTION_STATS: settings->stats = 1; break;
        case 'l': return list_names();
        case 'h': return print(USAGE);
        case 'V': return print("iconvd-convert " VERSION "\n");
        default: fputs("Try 'iconvd-convert --help'.\n", stderr); return EXIT_WORDS;
        }
    }
    settings->files = words[optind] ? words + optind : standard_input;
    return -1;
}
