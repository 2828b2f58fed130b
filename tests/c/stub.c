/* Stands in for NAME (report or listing): it reads standard input to its end, then writes OUTPUT. Where reading or
 * writing fails, it tells so as they have to; or does wrong, in one of the WRONG ways that the checks must notice.
 */
#include <unistd.h>

enum { RIGHT, SILENT, NAMELESS, TWICE, VERDICT, GOES_ON };

static void say(const char *text, size_t length)
{
    if (write(2, text, length) < 0)
        return;
}

static void tell(void)
{
    static const char line[] = NAME ": reading or writing failed\n";
    static const char nameless[] = "reading or writing failed\n";
    static int told;

    if (told++ && WRONG != TWICE)
        return;
    if (WRONG == NAMELESS)
        say(nameless, sizeof nameless - 1);
    else if (WRONG != SILENT)
        say(line, sizeof line - 1);
    if (WRONG == TWICE)
        say(line, sizeof line - 1);
}

int main(void)
{
    static char source[4096];
    static const char output[] = OUTPUT;
    size_t done = 0;
    ssize_t length;

    do
        length = read(0, source, sizeof source);
    while (length > 0);
    if (length < 0) {
        tell();
        if (WRONG != VERDICT)
            return 0;
    }
    while (done < sizeof output - 1) {
        size_t rest = sizeof output - 1 - done;

        length = write(1, output + done, rest < 20 ? rest : 20);
        if (length < 0) {
            tell();
            if (WRONG != GOES_ON)
                return 0;
            length = rest < 20 ? (ssize_t)rest : 20;
        }
        done += (size_t)length;
    }
    return 0;
}
